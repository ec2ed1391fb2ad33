/** What specifiers resolve to, as the documentation of node and of TypeScript says. */

import assert from "node:assert/strict";
import { symlinkSync } from "node:fs";
import { join, relative } from "node:path";
import { test } from "node:test";
import { fileURLToPath } from "node:url";

import { Resolver } from "../modinfo-graph/dist/graph/resolver.js";
import { folderOf } from "./run_commands.mjs";

/**
 * @param {string} specifier
 * @param {object} [more]
 */
const imported = (specifier, more) => ({ type: "static", kind: "import", specifier, ...more });
/** @param {unknown} argument */
const required = (argument) => ({ type: "dynamic", kind: "require", argument });
/** @param {string} argument */
const dynamic = (argument) => ({ type: "dynamic", argument });

/** @typedef {import("../modinfo-graph/dist/index.js").Resolution} Resolution */

/**
 * Resolves the names of modules, and sets the member `resolved` of all that names one in a copy.
 * @param {import("../modinfo-graph/dist/graph/resolver.js").ResolverOptions} [options]
 * @returns {(info: object, path: string) => { info: any, notices: string[] }}
 */
function resolverOf(options) {
  const resolver = new Resolver({ types: true, ...options });
  return (info, path) => {
    const copy = structuredClone(info);
    resolver.resolveInfo(copy, path);
    return { info: copy, notices: resolver.takeNotices() };
  };
}

/**
 * A resolution in few words: its class, unless that is `file`, its files by their paths in a folder,
 * and the rules that found it, unless these are node's.
 * @param {string} folder
 * @param {{ class: string, package?: string, file?: string, types?: string, by?: string }} resolution
 */
function brief(folder, { class: name, package: own, file, types, by = "node" }) {
  /** @param {string} url */
  const pathOf = (url) => relative(folder, fileURLToPath(url));
  const words = [name === "file" ? [] : name, own ?? [], file ? pathOf(file) : []].flat();
  return [...words, ...(types ? [`types ${pathOf(types)}`] : []), ...(by === "node" ? [] : [`by ${by}`])].join(" ");
}

/**
 * What some dependencies of a module resolve to, in few words.
 * @param {string} folder
 * @param {string} module
 * @param {object[]} dependencies
 * @param {{ by?: ReturnType<typeof resolverOf>, script?: boolean }} options
 * @returns {string[]}
 */
function resolved(folder, module, dependencies, { by = resolverOf(), ...more } = {}) {
  const { info } = by({ dependencies, ...more }, join(folder, module));
  /** @type {{ resolved: Resolution }[]} */
  const found = info.dependencies;
  return found.map((each) => brief(folder, each.resolved));
}

test("a require runs the JavaScript, and its types are those beside it", () => {
  const folder = folderOf({ "a.js": "", "b.js": "", "b.d.ts": "", "c/index.js": "", "d.cjs": "" });
  assert.deepEqual(
    resolved(folder, "a.js", ["./b", "./b.js", "./c", "./d", "./d.cjs"].map(required)),
    ["b.js types b.d.ts", "b.js types b.d.ts", "c/index.js", "missing", "d.cjs"],
  );
});

test("a package without exports runs its main, and has the types that it names", () => {
  const folder = folderOf({
    "packages/w/package.json": `{"name":"w","main":"src/index.js","types":"types/index.d.ts"}`,
    "packages/w/src/index.js": "", "packages/w/types/index.d.ts": "",
    "node_modules/p/package.json": `{"name":"p","main":"lib/main"}`, "node_modules/p/lib/main.js": "",
    "node_modules/p/other.js": "", "a.js": "",
  });
  symlinkSync("../packages/w", join(folder, "node_modules/w"));
  assert.deepEqual(resolved(folder, "a.js", ["w", "p", "p/other", "p/none", "q"].map(required)), [
    "packages/w/src/index.js types packages/w/types/index.d.ts",
    "package p node_modules/p/lib/main.js", "package p node_modules/p/other.js",
    "missing", "package q",
  ]);
});

test("exports and imports by conditions, and a package that names itself", () => {
  const folder = folderOf({
    "package.json": JSON.stringify({
      name: "own", type: "module", exports: { "./x": "./lib/x.js" }, imports: { "#y": "./lib/y.js" },
    }),
    "lib/x.js": "", "lib/y.js": "", "a.js": "", "b.cjs": "",
    "node_modules/p/package.json": JSON.stringify({
      name: "p",
      exports: {
        ".": { special: "./s.js", types: "./t.d.ts", import: "./i.mjs", require: "./r.cjs" },
        "./q/*": "./*.js", "./q/hidden": null,
      },
    }),
    "node_modules/p/s.js": "", "node_modules/p/t.d.ts": "", "node_modules/p/i.mjs": "",
    "node_modules/p/r.cjs": "", "node_modules/p/hidden.js": "",
  });
  const names = ["p", "p/q/s", "p/q/hidden", "p/s.js", "own/x", "#y", "#z", "own/lib/x.js"];
  const rest = [
    "package p node_modules/p/s.js", "missing", "missing", "lib/x.js", "lib/y.js", "missing", "missing",
  ];
  const types = "types node_modules/p/t.d.ts";
  assert.deepEqual(resolved(folder, "a.js", names.map((name) => imported(name))), [
    `package p node_modules/p/i.mjs ${types}`, ...rest,
  ]);
  assert.deepEqual(resolved(folder, "b.cjs", names.map(required), { script: true }), [
    `package p node_modules/p/r.cjs ${types}`, ...rest,
  ]);
  const by = resolverOf({ conditions: ["special"] });
  const both = [imported("p"), required("p")];
  assert.deepEqual((resolved(folder, "a.js", both, { by })).map((each) => each.split(" ")[2]), [
    "node_modules/p/s.js", "node_modules/p/s.js",
  ]);
});

test("the classes of what is no module of the project", () => {
  const folder = folderOf({
    "a.js": "", "style.css": "", "package.json": "{}", "bin/run": "",
    "node_modules/@types/only/index.d.ts": "export {};",
  });
  const names = [
    "fs", "node:fs", "node:test", "node:none", "./package.json", "./style.css", "./bin/run", "", "..",
    "https://a.test/b.js", "npm:b", "only", "./none.js", "jsr:@a/b", "data:text/javascript,1",
  ];
  const expected = [
    "builtin", "builtin", "builtin", "missing", "package.json", "asset style.css", "bin/run", "missing",
    "missing", "url", "npm", "package only types node_modules/@types/only/index.d.ts by bundler", "missing", "jsr", "data",
  ];
  assert.deepEqual(resolved(folder, "a.js", names.map(required), { script: true }), expected);
  assert.deepEqual(resolved(folder, "a.js", names.map((name) => imported(name))), expected);
});

test("an argument is its parts together, where all of them are known", () => {
  const folder = folderOf({ "a.js": "", "b.js": "" });
  /** @param {string} value */
  const text = (value) => ({ type: "string", value });
  const dependencies = [
    required([text("./b"), text(".js")]), required([text("./b"), { type: "expr" }]), required(undefined),
  ];
  assert.deepEqual(resolved(folder, "a.js", dependencies), ["b.js", "unknown", "unknown"]);
});

test("an import has the whole name of a file for node, and not for a bundler", () => {
  const folder = folderOf({
    "esm/package.json": `{"type":"module"}`, "esm/a.js": "", "esm/b.js": "", "esm/c/index.js": "",
    "none/a.js": "", "none/b.js": "", "none/c/index.js": "", "none/x.mjs": "", "none/d e.js": "",
  });
  const names = ["./b", "./b.js", "./c", "./b.js?x", "./d%20e.js"].map((name) => imported(name));
  assert.deepEqual(resolved(folder, "esm/a.js", names), [
    "esm/b.js by bundler", "esm/b.js", "esm/c/index.js by bundler", "esm/b.js", "missing",
  ]);
  assert.deepEqual((resolved(folder, "none/x.mjs", names))[0], "none/b.js by bundler");
  assert.deepEqual(resolved(folder, "none/a.js", names), [
    "none/b.js by bundler", "none/b.js", "none/c/index.js by bundler", "none/b.js", "none/d e.js",
  ]);
  const script = resolved(folder, "none/a.js", [dynamic("./b"), required("./b")], { script: true });
  assert.deepEqual(script, ["none/b.js by bundler", "none/b.js"]);
});

test("a TypeScript file names the TypeScript files of its project, also by their JavaScript", () => {
  const folder = folderOf({
    "package.json": `{"type":"module"}`,
    "a.ts": "", "b.ts": "", "b.js": "", "c.tsx": "", "d.mts": "", "f.d.ts": "", "g.js": "", "g.d.ts": "",
    "h.js": "", "i.js": "",
  });
  const names = ["./b.js", "./b.ts", "./c.js", "./d.mjs", "./f.js", "./g.js", "./h.js", "./c.tsx"];
  const sources = [
    "b.ts by bundler", "b.ts", "c.tsx by bundler", "d.mts by bundler", "types f.d.ts by bundler",
    "g.js types g.d.ts", "h.js", "c.tsx",
  ];
  assert.deepEqual(resolved(folder, "a.ts", names.map((name) => imported(name))), sources);
  // JavaScript runs what is there, and else what is compiled to it.
  const [first, ...others] = resolved(folder, "i.js", names.map((name) => imported(name)));
  assert.deepEqual([first, others], ["b.js types b.ts", sources.slice(1)]);
});

test("the options of the nearest tsconfig.json, and of the project that includes a file", () => {
  /** @param {string} target */
  const paths = (target) => ({ baseUrl: ".", paths: { "@/*": [target] }, moduleResolution: "node" });
  const folder = folderOf({
    "tsconfig.json": `{"files":[],"references":[{"path":"./app"},{"path":"./tsconfig.test.json"}]}`,
    "app/tsconfig.json": JSON.stringify({ compilerOptions: paths("src/*"), include: ["src"] }),
    "tsconfig.test.json": JSON.stringify({ compilerOptions: paths("app/src/*"), include: ["test"] }),
    "app/src/a.ts": "", "app/src/b.ts": "", "test/c.ts": "", "test/d.js": "", "other/e.ts": "",
  });
  const names = [imported("@/b")];
  const expected = ["app/src/b.ts by tsconfig"];
  for (const file of ["app/src/a.ts", "test/c.ts", "test/d.js"]) {
    assert.deepEqual(resolved(folder, file, names), expected, file);
  }
  assert.deepEqual(resolved(folder, "other/e.ts", names), ["missing"]);
  const by = resolverOf({ tsconfig: join(folder, "tsconfig.test.json") });
  assert.deepEqual(resolved(folder, "other/e.ts", names, { by }), expected);
});

test("types of a file that no configuration includes are those beside what runs", () => {
  const folder = folderOf({
    "tsconfig.json": `{"compilerOptions":{"baseUrl":"."},"include":["src"]}`,
    "lib/index.d.ts": "", "lib/index.js": "", "node_modules/lib/index.d.ts": "", "node_modules/lib/index.js": "",
  });
  const names = [imported("lib")];
  const expected = ["lib/index.js types lib/index.d.ts by tsconfig"];
  const by = resolverOf({ tsconfig: join(folder, "tsconfig.json") });
  assert.deepEqual(resolved(folder, "src/a.ts", names), expected);
  assert.deepEqual(resolved(folder, "scripts/a.ts", names, { by }), expected);
  assert.deepEqual(resolved(folder, "scripts/a.ts", names), [
    "package lib node_modules/lib/index.js types node_modules/lib/index.d.ts",
  ]);
});

test("what comments name", () => {
  const folder = folderOf({
    "a.js": "", "b.js": "", "t.d.ts": "", "c.ts": "",
    "node_modules/jsx/package.json": `{"name":"jsx","exports":{"./jsx-runtime":"./r.js"}}`,
    "node_modules/jsx/r.js": "", "node_modules/@types/n/index.d.ts": "",
  });
  const info = {
    dependencies: [imported("./b.js", { typesSpecifier: { text: "./t.d.ts" } })],
    tsReferences: [{ type: "path", text: "t.d.ts" }, { type: "path", text: "no.d.ts" }, { type: "types", text: "n" }],
    jsxImportSource: { text: "jsx" }, selfTypesSpecifier: { text: "./t.d.ts" },
    jsdocImports: [{ text: "./c.ts" }, { text: "./c" }],
  };
  const { info: found } = resolverOf()(info, join(folder, "a.js"));
  const named = [
    found.dependencies[0].typesSpecifier, ...found.tsReferences, found.jsxImportSource,
    found.selfTypesSpecifier, ...found.jsdocImports,
  ];
  assert.deepEqual(named.map((each) => brief(folder, each.resolved)), [
    "t.d.ts", "t.d.ts", "missing", "package n types node_modules/@types/n/index.d.ts by bundler",
    "package jsx node_modules/jsx/r.js", "t.d.ts", "c.ts", "c.ts by bundler",
  ]);
});

test("what is wrong with a configuration is reported once", () => {
  const folder = folderOf({
    "a/tsconfig.json": `{ "extends": "../base.json", "compilerOptions": { "module": "none such" } }`,
    "base.json": `{ "compilerOptions": {`, "a/b.ts": "", "a/c.ts": "",
  });
  const by = resolverOf();
  /** @param {string} path */
  const noticesOf = (path) => by({ dependencies: [imported("./c.js")] }, join(folder, path)).notices;
  const [first, second, ...others] = noticesOf("a/b.ts");
  assert.match(first, /^\/.*base\.json: ignored: .*JSON/);
  assert.match(second, /^\/.*a\/tsconfig\.json: Argument for '--module' option must be: /);
  assert.deepEqual(others, []);
  assert.deepEqual(noticesOf("a/c.ts"), []);
});
