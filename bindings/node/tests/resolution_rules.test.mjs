/** What names lead to besides node's rules: those of configurations, compilers and bundlers, and refusals. */

import assert from "node:assert/strict";
import fs, { symlinkSync } from "node:fs";
import { dirname, join, relative } from "node:path";
import { test } from "node:test";
import { fileURLToPath } from "node:url";

import { matchesName, matchesPath } from "../modinfo-graph/dist/files/globs.js";
import { parseWithComments } from "../modinfo-graph/dist/graph/package_manifests.js";
import { Resolver } from "../modinfo-graph/dist/graph/resolver.js";
import { folderOf } from "./run_commands.mjs";
import { unchecked } from "./unchecked.mjs";

/** @typedef {import("../modinfo-graph/dist/graph/references.js").Syntax} NameKind */

/**
 * What some names in a module lead to: the class unless it is `file` or `package`, the path in the
 * folder, and the rules unless they are node's.
 * @param {string} folder
 * @param {string} module its path in the folder
 * @param {string[]} names
 * @param {{ kind?: NameKind, conditions?: string[], notices?: string[] }} [options] notices are those
 *   that there have to be
 */
function found(folder, module, names, options = {}) {
  const { kind, conditions, notices = [] } = options;
  const resolver = new Resolver({ root: folder, conditions });
  const all = names.map((name) => {
    const resolved = /** @type {any} */ (resolver.resolve(name, join(folder, module), { kind }));
    const { class: word, file, types, by = "node" } = resolved;
    const url = file ?? types;
    const path = url === undefined ? word : `${file ? "" : "types "}${relative(folder, fileURLToPath(url))}`;
    return `${path}${by === "node" ? "" : ` by ${by}`}`;
  });
  const noticed = resolver.takeNotices().map((each) => each.replace(`${folder}/`, ""));
  assert.deepEqual(noticed, notices);
  return all;
}

test("a plain Vite project: names without endings, with queries, and from the folder of the project", () => {
  const folder = folderOf({
    "package.json": `{"type":"module"}`, "index.html": "", "src/main.tsx": "", "src/App.tsx": "", "src/util/index.ts": "",
    "src/store.js": "", "src/worker.ts": "", "src/logo.svg": "", "src/data.json": "", "src/App.vue": "", "src/only.vue": "",
    "src/x.mjs": "", "src/style.module.css": "",
  });
  const names = [
    "./App", "./util", "./store", "./worker?worker", "./logo.svg?url", "./logo.svg#a", "./data", "./App.vue", "./only", "./x",
    "/src/main.tsx", "./style.module.css", "!raw-loader!./store.js", "./none", "./App?x?y",
  ];
  assert.deepEqual(found(folder, "src/main.tsx", names), [
    "src/App.tsx by bundler", "src/util/index.ts by bundler", "src/store.js by bundler", "src/worker.ts by bundler",
    "src/logo.svg", "src/logo.svg", "src/data.json by bundler", "src/App.vue", "src/only.vue by bundler", "src/x.mjs by bundler",
    "src/main.tsx by bundler", "src/style.module.css", "src/store.js by bundler", "missing", "src/App.tsx by bundler",
  ]);
});

test("in TypeScript a TypeScript file comes first, in JavaScript a file of JavaScript", () => {
  const folder = folderOf({
    "package.json": `{"type":"module"}`, "a.ts": "", "a.js": "", "b.ts": "", "b.js": "", "c.mts": "", "d.cts": "", "e.d.ts": "",
    "f.tsx": "", "g.d.mts": "", "h/index.d.ts": "",
  });
  const names = ["./b", "./b.js", "./b.ts", "./c.mjs", "./d.cjs", "./e", "./e.js", "./f.js", "./f.jsx", "./g.mjs", "./h"];
  const others = [
    "b.ts", "c.mts by bundler", "d.cts by bundler", "types e.d.ts by bundler", "types e.d.ts by bundler", "f.tsx by bundler",
    "f.tsx by bundler", "types g.d.mts by bundler", "types h/index.d.ts by bundler",
  ];
  assert.deepEqual(found(folder, "a.ts", names), ["b.ts by bundler", "b.ts by bundler", ...others]);
  assert.deepEqual(found(folder, "a.js", names), ["b.js by bundler", "b.js", ...others]);
});

test("a name that ends as a folder's leads to no file beside the folder", () => {
  /** @type {[from: string, name: string, expected: string][]} By TypeScript 4.8 and by node's require. */
  const rows = [
    ["a", "./utils", "utils"], ["a", "./utils/", "utils/index"], ["a", "./utils/.", "utils/index"],
    ["a", "./utils/deep/..", "utils/index"], ["utils/y", ".", "utils/index"], ["utils/y", "./", "utils/index"],
    ["utils/deep/x", "..", "utils/index"], ["utils/deep/x", "../", "utils/index"],
    ["utils/deep/x", "../.", "utils/index"],
  ];
  for (const ending of ["ts", "js"]) {
    const folder = folderOf({ [`utils.${ending}`]: "", [`utils/index.${ending}`]: "", [`utils/deep/x.${ending}`]: "" });
    for (const [from, name, expected] of rows) {
      const module = `${from}.${ending}`;
      const byBundler = `${expected}.${ending} by bundler`;
      const required = ending === "js" ? `${expected}.js` : byBundler;
      assert.deepEqual(found(folder, module, [name]), [byBundler], `${name} in ${module}`);
      assert.deepEqual(found(folder, module, [name], { kind: "require" }), [required], `${name} in ${module}`);
    }
  }
  const folder = folderOf({
    "tsconfig.json": `{"compilerOptions":{"baseUrl":".","paths":{"@/*":["./src/*"],"exact":["./src/utils/"]}}}`,
    "src/utils.ts": "", "src/utils/index.ts": "", "node_modules/p/u.ts": "", "node_modules/p/u/index.ts": "",
  });
  const names = ["@/utils", "@/utils/", "exact", "src/utils", "src/utils/", "p/u", "p/u/"];
  assert.deepEqual(found(folder, "main.ts", names), [
    "src/utils.ts by tsconfig", "src/utils/index.ts by tsconfig", "src/utils/index.ts by tsconfig",
    "src/utils.ts by tsconfig", "src/utils/index.ts by tsconfig", "node_modules/p/u.ts by bundler",
    "node_modules/p/u/index.ts by bundler",
  ]);
});

test("what bundlers find of a package: files without endings, module, and other conditions", () => {
  const folder = folderOf({
    "package.json": `{"type":"module"}`, "a.js": "",
    "node_modules/p/package.json": `{"module":"es/main.js"}`, "node_modules/p/es/main.js": "", "node_modules/p/map.js": "",
    "node_modules/q/package.json": `{"exports":{".":{"development":"./d.js"},"./t":{"types":"./t.d.ts"}}}`,
    "node_modules/q/d.js": "", "node_modules/q/t.d.ts": "", "node_modules/q/hidden.js": "",
    "node_modules/r/package.json": `{"exports":{"./x":{"import":"./i.js","require":"./r.js"}}}`,
    "node_modules/r/i.js": "", "node_modules/r/r.js": "",
    "node_modules/t/package.json": `{"types":"t.d.ts"}`, "node_modules/t/t.d.ts": "",
    "node_modules/@types/estree/index.d.ts": "", "node_modules/@types/a__b/index.d.ts": "", "node_modules/@types/a__b/c.d.ts": "",
  });
  assert.deepEqual(found(folder, "a.js", ["p", "p/map", "p/map?x", "r/x?y", "q", "q/t", "q/hidden.js", "t", "none", "estree", "@a/b/c"]), [
    "node_modules/p/es/main.js by bundler", "node_modules/p/map.js by bundler", "node_modules/p/map.js by bundler", "node_modules/r/i.js by bundler",
    "node_modules/q/d.js by bundler", "types node_modules/q/t.d.ts by bundler", "missing",
    "types node_modules/t/t.d.ts by bundler", "package", "types node_modules/@types/estree/index.d.ts by bundler",
    "types node_modules/@types/a__b/c.d.ts by bundler",
  ]);
});

test("browser counts with its condition: other files, other packages, and nothing", () => {
  const browser = {
    "./node.js": "./web.js", "./gone.js": false, fs: false, path: "path-web", "./dir/index.js": "./web.js", "./short": "./web",
    "./absent.js": "./web.js",
  };
  const folder = folderOf({
    "package.json": JSON.stringify({ browser }), "a.js": "", "node.js": "", "web.js": "", "gone.js": "", "dir/index.js": "", "short.js": "",
    "node_modules/path-web/index.js": "",
    "node_modules/p/package.json": `{"main":"m.js","browser":"b.js"}`, "node_modules/p/m.js": "", "node_modules/p/b.js": "",
  });
  const names = ["./node", "./node.js", "./gone.js", "fs", "path", "./dir", "./short", "p", "os", "./absent.js"];
  assert.deepEqual(found(folder, "a.js", names, { kind: "require", conditions: ["browser"] }), [
    "web.js by bundler", "web.js by bundler", "disabled", "disabled", "node_modules/path-web/index.js by bundler",
    "web.js by bundler", "web.js by bundler", "node_modules/p/b.js by bundler", "builtin",
    "web.js by bundler",
  ]);
  assert.deepEqual(found(folder, "a.js", names, { kind: "require" }), [
    "node.js", "node.js", "gone.js", "builtin", "builtin", "dir/index.js", "short.js", "node_modules/p/m.js", "builtin", "missing",
  ]);
});

test("paths, baseUrl and rootDirs, also of what a configuration extends", () => {
  const folder = folderOf({
    "tsconfig.json": `{ // comments, and commas at the end
      "extends": ["./base.json", "shared"], /* the second one is a package */
      "compilerOptions": { "rootDirs": ["gen", "src"], "declarationDir": "types", }, }`,
    "base.json": JSON.stringify({
      compilerOptions: { baseUrl: "src", paths: { "@/*": ["*"], "@/sub/*": ["none/*", "sub/*"], exact: ["a.ts"], "x*y": ["*"] } },
    }),
    "node_modules/shared/tsconfig.json": `{"compilerOptions":{"outDir":"../../dist"}}`,
    "src/a.ts": "", "src/sub/b.ts": "", "src/lib/index.ts": "", "gen/c.ts": "", "src/m.ts": "", "dist/a.js": "",
    "src/both.ts": "", "gen/both.ts": "",
  });
  const names = ["@/a", "@/sub/b", "exact", "xmy", "lib", "./c", "sub/b", "@/none", "../dist/sub/b.js", "./both"];
  assert.deepEqual(found(folder, "src/a.ts", names), [
    "src/a.ts by tsconfig", "src/sub/b.ts by tsconfig", "src/a.ts by tsconfig", "src/m.ts by tsconfig",
    "src/lib/index.ts by tsconfig", "gen/c.ts by tsconfig", "src/sub/b.ts by tsconfig", "missing", "src/sub/b.ts by tsconfig",
    "src/both.ts by bundler",
  ]);
});

test("targets of paths are in the baseUrl of all configurations, else in the folder of theirs", () => {
  const [base, paths] = [{ baseUrl: "./src" }, { paths: { "@/*": ["./lib/*"] } }];
  const places = ["lib/x.ts", "src/lib/x.ts", "config/lib/x.ts", "config/src/lib/x.ts"];
  const both = { ...base, ...paths };
  /** @type {[own: object, extended: object, expected: string][]} By TypeScript 4.8. */
  const rows = [
    [paths, base, "config/src/lib/x.ts"], [base, paths, "src/lib/x.ts"], [base, both, "src/lib/x.ts"],
    [{}, paths, "config/lib/x.ts"], [{}, both, "config/src/lib/x.ts"], [paths, paths, "lib/x.ts"],
    [{ baseUrl: null }, both, "config/lib/x.ts"], [{ ...paths, baseUrl: null }, base, "lib/x.ts"],
  ];
  for (const [own, extended, expected] of rows) {
    const folder = folderOf({
      "tsconfig.json": JSON.stringify({ extends: "./config/base.json", compilerOptions: own }),
      "config/base.json": JSON.stringify({ compilerOptions: extended }),
      ...Object.fromEntries(places.map((each) => [each, ""])),
    });
    assert.deepEqual(found(folder, "main.ts", ["@/x"]), [`${expected} by tsconfig`], JSON.stringify([own, extended]));
  }
});

test("a configuration that doesn't include a file has names for it after node", () => {
  const folder = folderOf({
    "tsconfig.json": JSON.stringify({
      compilerOptions: { baseUrl: ".", paths: { "@/*": ["./src/*"], os: ["./src/os.ts"] } }, include: ["src"],
    }),
    "config/index.js": "", "path/index.js": "", "only/index.js": "", "node_modules/config/index.js": "",
    "src/os.ts": "",
  });
  const names = ["config", "only", "@/os", "os", "path"];
  const [own, ...common] = ["config/index.js", "only/index.js", "src/os.ts"].map((each) => `${each} by tsconfig`);
  const included = [own, ...common, "src/os.ts by tsconfig", "builtin"];
  /** @type {[from: string, expected: string[], conditions?: string[]][]} */
  const rows = [
    ["src/a.ts", included], ["src/a.js", included],
    ["scripts/a.js", ["node_modules/config/index.js", ...common, "builtin", "builtin"]],
    ["scripts/a.ts", ["node_modules/config/index.js", ...common, "builtin", "builtin"]],
    ["src/a.js", [...included.slice(0, -1), "path/index.js by tsconfig"], ["browser"]],
  ];
  for (const [from, expected, conditions] of rows) {
    assert.deepEqual(found(folder, from, names, { kind: "require", conditions }), expected, from);
  }
});

test("configDir is the folder of the configuration that extends others", () => {
  const folder = folderOf({
    "tsconfig.json": `{"files":[],"references":[{"path":"./tsconfig.app.json"},{"path":"./tsconfig.test.json"}]}`,
    "tsconfig.app.json": `{"extends":"./config/base.json"}`,
    "tsconfig.test.json": JSON.stringify({
      extends: "./config/base.json", files: ["test/d.ts"], include: [],
      compilerOptions: { paths: { "@/*": ["./test/*"] } },
    }),
    "config/base.json": JSON.stringify({
      files: ["${configDir}/one.ts"], include: ["${configDir}/src"], exclude: ["${configDir}/src/out"],
      compilerOptions: { paths: { "@/*": ["${configDir}/src/*"] } },
    }),
    "one.ts": "", "src/a.ts": "", "src/b.ts": "", "src/out/c.ts": "", "test/b.ts": "", "test/d.ts": "",
  });
  for (const [from, expected] of [["one.ts", "src/b.ts"], ["src/a.ts", "src/b.ts"], ["test/d.ts", "test/b.ts"]]) {
    assert.deepEqual(found(folder, from, ["@/b"]), [`${expected} by tsconfig`], from);
  }
  assert.deepEqual(found(folder, "src/out/c.ts", ["@/b"]), ["missing"]);
});

test("packages of a workspace whose files aren't built, or that aren't installed", () => {
  const folder = folderOf({
    "package.json": `{"workspaces":["packages/*","tools/one"]}`, "packages/app/src/main.ts": "", "packages/app/package.json": "{}",
    "packages/built/package.json": `{"name":"@w/built","exports":{".":"./dist/index.js","./sub":"./dist/sub/x.js"}}`,
    "packages/built/tsconfig.json": `{"compilerOptions":{"outDir":"dist","rootDir":"src"}}`,
    "packages/built/src/index.ts": "", "packages/built/src/sub/x.tsx": "",
    "packages/plain/package.json": `{"name":"plain","main":"lib/cjs/index.js","module":"lib/esm/index.js"}`, "packages/plain/src/index.js": "",
    "packages/app/src/util.ts": "", "packages/there/package.json": `{"name":"there","main":"dist/m.js"}`, "packages/there/dist/other.js": "", "packages/there/src/m.ts": "",
    "tools/one/package.json": `{"name":"one"}`, "tools/one/index.ts": "", "tools/two/package.json": `{"name":"two"}`, "tools/two/index.js": "",
  });
  const names = ["@w/built", "@w/built/sub", "plain", "one", "two", "there", "../other/util.js"];
  const sources = [
    "packages/built/src/index.ts by tsconfig", "packages/built/src/sub/x.tsx by tsconfig", "packages/plain/src/index.js by bundler",
    "tools/one/index.ts by bundler", "package", "missing", "missing",
  ];
  assert.deepEqual(found(folder, "packages/app/src/main.ts", names), sources);
  const linked = folderOf({
    "pnpm-workspace.yaml": "packages:\n  # all\n  - 'libs/*'\n  - \"tools/*\" # more\n\nother: 1\n",
    "libs/a/package.json": `{"name":"a","main":"dist/index.js"}`, "libs/a/src/index.ts": "", "libs/b/package.json": `{"name":"b"}`,
    "libs/b/main.ts": "", "tools/c/package.json": `{"name":"c"}`, "tools/c/index.js": "", "libs/b/node_modules/x/index.js": "",
  });
  symlinkSync("../../a", join(linked, "libs/b/node_modules/a"));
  assert.deepEqual(found(linked, "libs/b/main.ts", ["a", "c"]), ["libs/a/src/index.ts by bundler", "tools/c/index.js by bundler"]);
});

test("a workspace's ** is any folders, its ! leaves some out, and its lines may end as on Windows", () => {
  const packages = Object.fromEntries([
    "packages", "packages/a", "packages/group/b", "packages/group/deep/c", "packages/group/node_modules/d", "packages/.e/f",
    "packages/a/test/g", "tools/h", "tools/x/i", "other/j", "other/x/k/lib", "other/x/lib", "other/lib",
  ].flatMap((path) => [[`${path}/package.json`, `{"name":"n-${path.replaceAll("/", "-")}"}`], [`${path}/index.js`, ""]]));
  const patterns = ["packages/**", "!**/test/**", "tools/*", "other/**/lib"];
  const yaml = `packages:\n${patterns.map((each) => `  - '${each}'\n`).join("")}  - packages/group\nother: 1\n`;
  for (const [file, text] of [
    ["package.json", JSON.stringify({ workspaces: patterns })], ["pnpm-workspace.yaml", yaml],
    ["pnpm-workspace.yaml", yaml.replaceAll("\n", "\r\n")], ["pnpm-workspace.yaml", yaml.replace(/'([^!'][^']*)'/g, "$1")],
  ]) {
    const folder = folderOf({ ...packages, [file]: text, "main.js": "" });
    const names = Object.keys(packages).filter((path) => path.endsWith(".json")).map((path) => dirname(path));
    const isFound = (/** @type {string} */ path) => found(folder, "main.js", [`n-${path.replaceAll("/", "-")}`])[0] !== "package";
    assert.deepEqual(names.filter(isFound), [
      "packages", "packages/a", "packages/group/b", "packages/group/deep/c", "tools/h", "other/x/k/lib", "other/x/lib", "other/lib",
    ], text);
  }
});

test("references between projects lead to sources", () => {
  const folder = folderOf({
    "tsconfig.json": `{"files":[],"references":[{"path":"./core"},{"path":"./app/tsconfig.app.json"}]}`,
    "core/tsconfig.json": `{"compilerOptions":{"composite":true,"outDir":"../out/core","rootDir":"."},"include":["**/*.ts"]}`, "core/a.ts": "",
    "app/tsconfig.app.json": `{"compilerOptions":{"paths":{"~/*":["./*"]}},"include":["."],"exclude":["**/*.test.ts"]}`,
    "app/b.ts": "", "app/c.ts": "", "app/d.test.ts": "",
  });
  assert.deepEqual(found(folder, "app/b.ts", ["~/c", "../out/core/a.js"]), ["app/c.ts by tsconfig", "core/a.ts by tsconfig"]);
  assert.deepEqual(found(folder, "app/d.test.ts", ["~/c"]), ["package"]);
});

test("a deno.json: its import map, scopes, workspace, and files as ES modules", () => {
  const folder = folderOf({
    "deno.json": `{
      // as JSON with comments
      "imports": { "@std/": "jsr:/@std/", "@std/path": "jsr:@std/path@1", "chalk": "npm:chalk@5", "~/": "./src/", "r": "https://x.test/r.ts",
        "./src/old.ts": "./src/new.ts", "node": "node:fs", "bad": 5, },
      "scopes": { "./scoped/": { "~/": "./scoped/own/" } },
      "workspace": ["./member", "./broken", 5, "none"],
    }`,
    "broken/deno.json": "[]",
    "member/deno.jsonc": `{"name":"@m/member","exports":{".":"./mod.ts","./sub":"./sub.ts"},"imports":{"own":"./mod.ts"}}`,
    "member/mod.ts": "", "member/sub.ts": "", "src/main.ts": "", "src/new.ts": "", "src/b.ts": "", "scoped/a.ts": "", "scoped/own/b.ts": "",
  });
  const notices = [
    `deno.json: "bad" of "imports" is ignored: not a string`,
    "broken/deno.json: ignored: not an object",
  ];
  const names = [
    "@std/fs", "@std/path", "@std/path/posix", "chalk", "~/b.ts", "r", "./old.ts", "node", "@m/member", "@m/member/sub", "./b.ts", "own", "bad",
  ];
  assert.deepEqual(found(folder, "src/main.ts", names, { notices }), [
    "jsr", "jsr", "jsr", "npm", "src/b.ts by importmap", "url", "src/new.ts by importmap", "builtin", "member/mod.ts by importmap",
    "member/sub.ts by importmap", "src/b.ts", "package", "package",
  ]);
  assert.deepEqual(found(folder, "scoped/a.ts", ["~/b.ts"], { notices }), ["scoped/own/b.ts by importmap"]);
  assert.deepEqual(found(folder, "member/mod.ts", ["own", "~/b.ts"], { notices }), ["member/mod.ts by importmap", "src/b.ts by importmap"]);
});

test("what is kept of a name is for files of one folder with the same rules, and for its kind", () => {
  const paths = (/** @type {string} */ file, /** @type {string} */ target) => {
    return JSON.stringify({ include: [file], compilerOptions: { paths: { x: [target] } } });
  };
  const files = ["a.js", "a.ts", "b.ts", "both.js", "both.ts", "one.ts", "two.ts", "in/both.js"];
  const folder = folderOf({
    "tsconfig.json": `{"files":[],"references":[{"path":"./one.json"},{"path":"./two.json"}]}`,
    "one.json": paths("a.ts", "./one.ts"), "two.json": paths("b.ts", "./two.ts"),
    "deno/deno.json": `{"imports":{"x":"./one.ts"},"scopes":{"./b.ts":{"x":"./two.ts"}}}`,
    "node_modules/p/package.json": `{"exports":{"import":"./one.mjs","require":"./two.cjs"}}`,
    "node_modules/p/one.mjs": "", "node_modules/p/two.cjs": "",
    ...Object.fromEntries(["", "deno/"].flatMap((each) => files.map((name) => [each + name, ""]))),
  });
  const resolver = new Resolver({ root: folder });
  /** @type {[from: string, name: string, kind: NameKind, expected: string][]} */
  const expected = [
    ["a.ts", "x", "import", "one.ts"], ["b.ts", "x", "import", "two.ts"], ["a.ts", "x", "import", "one.ts"],
    ["a.ts", "./both", "import", "both.ts"], ["a.js", "./both", "import", "both.js"], ["in/both.js", "./both", "import", "in/both.js"],
    ["deno/a.ts", "x", "import", "deno/one.ts"], ["deno/b.ts", "x", "import", "deno/two.ts"],
    ["a.js", "p", "import", "node_modules/p/one.mjs"], ["a.js", "p", "require", "node_modules/p/two.cjs"],
  ];
  for (const [from, name, kind, file] of expected) {
    const resolved = /** @type {any} */ (resolver.resolve(name, join(folder, from), { kind }));
    assert.equal(resolved.file && relative(folder, fileURLToPath(resolved.file)), file, `${name} in ${from}`);
  }
});

test("names that can be none are missing before any rule, and URLs have their classes", () => {
  const folder = folderOf({ "a.js": "", "b.js": "", "package.json": `{"type":"module","imports":{"#fs":"fs/promises","#p":"path"}}` });
  const long = `./${"a/".repeat(2046)}b`;
  const names = [
    "", "./a\0.js", "./\0/../b.js", `${long}${"b".repeat(4096 - long.length)}`, `./${"./".repeat(3000)}b.js`, "./b%2ejs", "./%62.js", "./x%2fb.js", "./x%5cb.js",
    "./\tb.js", "data:,x", "node:fs", "node:none", "npm:x", "JSR:x", "https://x.test", "virtual:x", "#fs", "#p", "file:///none.js",
    new URL(`file://${folder}/b.js`).href, "//x.test/a.js",
  ];
  const common = [
    "data", "builtin", "missing", "npm", "jsr", "url", "url", "builtin", "builtin",
  ];
  assert.deepEqual(found(folder, "a.js", names), [
    ...Array(5).fill("missing"), "b.js", "b.js", "missing", "missing", "b.js", ...common, "missing", "b.js", "missing",
  ]);
  assert.deepEqual(found(folder, "a.js", names, { kind: "require" }), [
    ...Array(10).fill("missing"), ...common.slice(0, -2), "builtin", "builtin", "missing", "b.js by bundler", "missing",
  ]);
});

test("what is wrong with a manifest is a notice that names it, and leaves what else there is", () => {
  const deep = (/** @type {number} */ depth) => `${`{"node":`.repeat(depth)}"./b.js"${"}".repeat(depth)}`;
  /** @type {[manifest: string, notice: RegExp | undefined, name: string][]} */
  const manifests = [
    [`{"imports":{"__proto__":"./b.js","#a":"./b.js"},"__proto__":{"name":"x"}}`, undefined, "b.js"],
    [`{"imports":{"#a":{"__proto__":"./c.js","default":"./b.js"}}}`, undefined, "b.js"],
    [`{"imports":["#a"]}`, /"imports" must be an object$/, "missing"],
    [`{"imports":5}`, /"imports" must be an object$/, "missing"],
    [`{"imports":{"#a":5}}`, /5 isn't a valid target$/, "missing"],
    [`{"imports":{"#a":["#a",5]}}`, undefined, "missing"],
    [`{"imports":{"#a":"#b","#b":"#a"}}`, undefined, "missing"],
    [`{"imports":{"#a":"../b.js"}}`, /"\.\.\/b\.js" isn't a valid target: it leaves the package, or lacks "\.\/"$/, "missing"],
    [`{"imports":{"#a":{"0":"./b.js"}}}`, /a condition can't be a number$/, "missing"],
    [`{"imports":{"#a":${deep(900)}}}`, undefined, "b.js"],
    [`{"imports":{"#a":${deep(100_000)}}}`, /more than 1000 conditions or lists are in each other$/, "missing"],
    [`{"imports":{"#a":${"[".repeat(100_000)}${"]".repeat(100_000)}}}`, /more than 1000 conditions or lists/, "missing"],
    [`[]`, /ignored: not an object$/, "missing"],
    [`null`, /ignored: not an object$/, "missing"],
    [`{"imports":`, /ignored: .*JSON/, "missing"],
    ["", /ignored: .*JSON/, "missing"],
    [`{"name":{},"main":[],"type":5,"exports":5,"browser":[5],"workspaces":{"packages":5},"imports":{"#a":"./b.js"}}`, undefined, "b.js"],
  ];
  for (const [manifest, notice, expected] of manifests) {
    const folder = folderOf({ "package.json": manifest, "a.js": "", "b.js": "" });
    const resolver = new Resolver({ root: folder, conditions: ["browser"] });
    for (const kind of /** @type {const} */ (["import", "require"])) {
      const resolved = /** @type {any} */ (resolver.resolve("#a", join(folder, "a.js"), { kind }));
      const path = resolved.file === undefined ? resolved.class : relative(folder, fileURLToPath(resolved.file));
      assert.equal(path, expected, manifest.slice(0, 100));
      assert.equal(resolver.resolve("./b.js", join(folder, "a.js"), { kind }).class, "file");
    }
    const notices = resolver.takeNotices();
    assert.equal(notices.length, notice ? 1 : 0, `${manifest.slice(0, 100)}: ${notices.join("\n").slice(0, 500)}`);
    assert.ok(!notice || (notices[0].startsWith(join(folder, "package.json: ")) && notice.test(notices[0])), notices[0]);
  }
});

test("what is wrong with a tsconfig.json is a notice, and the rest of it counts", () => {
  /** @type {[configuration: string, notice: string | undefined][]} */
  const configurations = [
    [`{"compilerOptions":{"paths":{"a":5,"@/*":["./*"]}}}`, `"a" of "paths" is ignored: not a list of strings`],
    [`{"compilerOptions":{"paths":{"a":"./b.ts","@/*":["./*"]}}}`, `"a" of "paths" is ignored: not a list of strings`],
    [`{"compilerOptions":{"baseUrl":5,"paths":{"@/*":["./*"]}}}`, `"baseUrl" is ignored: not a string`],
    [`{"compilerOptions":{"rootDirs":{},"paths":{"@/*":["./*"]}}}`, `"rootDirs" is ignored: not a list of strings`],
    [`{"references":5,"compilerOptions":{"paths":{"@/*":["./*"]}}}`, `"references" has more than objects with a "path"`],
    [`{"extends":"./tsconfig.json","compilerOptions":{"paths":{"@/*":["./*"]}}}`,
      `"extends" has "./tsconfig.json", which isn't found or extends this file`],
    [`{"extends":[${"[".repeat(100_000)}${"]".repeat(100_000)}],"compilerOptions":{"paths":{"@/*":["./*"]}}}`,
      `"extends" has a value that isn't a string, which isn't found or extends this file`],
    [`{"extends":"none","compilerOptions":{"paths":{"@/*":["./*"]}}}`, `"extends" has "none", which isn't found or extends this file`],
    [`{"include":5,"files":{},"exclude":[5],"compilerOptions":{"paths":{"@/*":["./*"],"__proto__":["./x"]}}}`, undefined],
  ];
  for (const [configuration, notice] of configurations) {
    const folder = folderOf({ "tsconfig.json": configuration, "a.ts": "", "b.ts": "" });
    const notices = notice === undefined ? [] : [`tsconfig.json: ${notice}`];
    assert.deepEqual(found(folder, "a.ts", ["@/b", "__proto__"], { notices })[0], "b.ts by tsconfig", configuration);
  }
  const folder = folderOf({ "tsconfig.json": `{"compilerOptions":5}`, "a.ts": "" });
  found(folder, "a.ts", ["./a"], { notices: [`tsconfig.json: "compilerOptions" must be an object`] });
});

test("wildcards take time that grows as pattern times path", () => {
  for (const [pattern, path, expected] of /** @type {[string, string, boolean][]} */ ([
    ["/a/**/*.ts", "/a/b/c/d.ts", true], ["/a/**/*.ts", "/a/d.ts", true], ["/a/*.ts", "/a/b/d.ts", false], ["/a/**", "/a", false], ["/a/**", "/a/b/c", true],
    ["/**/b/**/d", "/a/b/c/b/d", true], ["/a/?.ts", "/a/b.ts", true], ["/a/?.ts", "/a/bb.ts", false], ["/a/**/b", "/a/c", false],
  ])) {
    assert.equal(matchesPath(pattern, path), expected, `${pattern} ${path}`);
  }
  assert.ok(matchesName("*a*b?", "xxaxxbc"));
  // A search that tries each way would never end.
  assert.ok(!matchesName(`${"*a".repeat(40)}*b`, "a".repeat(4000)));
  assert.ok(!matchesPath(`/${"**/a/".repeat(40)}**/b`, "/a".repeat(2000)));
});

test("JSON with comments is read in time that grows as its length", () => {
  assert.deepEqual(parseWithComments(`{ // a, }\n "a//b": ["/*", 1, ], /* , } */ "c\\"": {"d": 1,}, }`), { "a//b": ["/*", 1], "c\"": { d: 1 } });
  for (const text of ["{ /* ", "[1,,]", "[/]", `["a]`, "// only"]) {
    assert.throws(() => parseWithComments(text), { name: "SyntaxError" }, text);
  }
  // In time that grows faster, hours would pass.
  for (const part of ["/*", "/*/", `"`, ",", ", ", "//", "\\", `"\\`]) {
    assert.throws(() => parseWithComments(part.repeat(300_000)), { name: "SyntaxError" }, part);
  }
});

/** The most paths that are looked at for one name: the endings that it may have, in each folder in which it may be. */
const MOST_LOOKED_AT = 100;

test("long names, and many of them, take no long time and no memory without end", () => {
  const folder = folderOf({
    "package.json": `{"name":"own","exports":{"./*":"./a/*"},"imports":{"#*":"./a/*.js"}}`, "a/b.js": "", "node_modules/p/index.js": "",
  });
  let looked = 0;
  /** @type {typeof fs.lstatSync} */
  const lstatSync = unchecked((/** @type {[any, any]} */ ...words) => {
    looked++;
    return fs.lstatSync(...words);
  });
  const resolver = new Resolver({ root: folder, system: { ...fs, lstatSync } });
  /**
   * @param {string} name
   * @param {"import" | "require"} [kind]
   */
  const classOf = (name, kind) => {
    looked = 0;
    const { class: word } = resolver.resolve(name, join(folder, "a/b.js"), { kind });
    assert.ok(looked <= MOST_LOOKED_AT, `${looked} paths are looked at for ${name}`);
    return word;
  };
  const parts = ["a/", "../", "./", "a/../", "%61/", "node_modules/", "a", "*", "@a/", "\\", "?", "é", "!", "//"];
  for (const part of parts) {
    for (const start of ["./", "", "#", "own/", "p/", "/", "file:///", "@s/"]) {
      const name = (start + part.repeat(4096)).slice(0, 4096);
      for (const kind of /** @type {const} */ (["import", "require"])) {
        const word = classOf(name, kind);
        assert.ok(["missing", "package", "outside", "url", "file"].includes(word), word);
      }
    }
  }
  for (let at = 0; at < 20_000; at++) {
    classOf(`./${"x".repeat(200)}${at}`);
    classOf(`#node_modules/${at}`);
  }
  assert.ok(resolver.takeNotices().length <= 10);
});
