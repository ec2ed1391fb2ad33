/** What no entry reaches, in its classes, as a user asks for it. */

import assert from "node:assert/strict";
import { execFileSync } from "node:child_process";
import { readFileSync } from "node:fs";
import { join } from "node:path";
import { test } from "node:test";
import { fileURLToPath } from "node:url";

import { commentsOf, literalsOf, looseImports } from "../modinfo-graph/dist/graph/loose_references.js";
import { scriptsOf } from "../modinfo-graph/dist/graph/scripts.js";
import { folderOf, run, urlOf } from "./run_commands.mjs";

const NAME = "modinfo-files";

/**
 * What `--unreached` prints in a folder for the entry main.js or main.ts: its lines, its error output and its status.
 * @param {Record<string, string>} files
 * @param {string[]} [words]
 */
function unreached(files, words = []) {
  const entry = "main.ts" in files ? "main.ts" : "main.js";
  const { stdout, stderr, status } = run("files", ["--entry", entry, "--unreached", ...words, "."], {
    cwd: folderOf(files),
  });
  return { lines: stdout.split("\n").slice(0, -1), stderr, status };
}

/** @param {string[]} lines */
function withStatus(lines, status = 0, stderr = "") {
  return { lines, stderr, status };
}

/** `src/main.ts` reaches three modules, one of them by way of another folder. */
const PROJECT = {
  "src/main.ts": `import { b } from "./b.js";\nimport("./c.js");\nimport(name);\n`,
  "src/b.ts": `import "../lib/d.js";\nimport type { T } from "./only_types.js";\nexport const b = 1;\n`,
  "src/c.js": "export const c = 1;\n",
  "src/only_types.ts": "export type T = 1;\n",
  "src/lonely.js": `require("./c.js");\n`,
  "src/node_modules/e/index.js": "",
  "lib/d.js": `require("../src/from_lib");\n`,
  "lib/d.d.ts": "export {};\n",
  "src/from_lib.js": "",
};

/** @param {string[]} words */
function ofProject(words) {
  const { stdout, status, stderr } = run("files", words, { cwd: folderOf(PROJECT) });
  return withStatus(stdout.split("\n").slice(0, -1), status ?? -1, stderr);
}

test("--unreached prints the files of the paths that no entry reaches, whatever lies between, and what types reach", () => {
  const words = ["--entry", "src/main.ts", "--unreached", "src"];
  assert.deepEqual(ofProject(words), withStatus([
    "src/lonely.js", "src/only_types.ts: reached by types alone: ./only_types.js at src/b.ts:2:24",
  ], 1));
  assert.deepEqual(ofProject([...words, "--types"]), withStatus(["src/lonely.js"], 1));
  const others = ["--entry", "src/lonely.js", "--unreached"];
  assert.deepEqual(ofProject([...others, "lib"]), withStatus(["lib/d.js"], 1));
  assert.deepEqual(ofProject([...others, "--types", "lib"]), withStatus(["lib/d.d.ts", "lib/d.js"], 1));
  assert.deepEqual(ofProject([...others, "src/c.js"]), withStatus([]));
});

test("a file that types alone reach is no finding", () => {
  assert.deepEqual(unreached({ "main.ts": `import type { T } from "./t";`, "t.ts": "export type T = 1;" }), withStatus([
    "t.ts: reached by types alone: ./t at main.ts:1:24",
  ]));
});

test("with --types a declaration file is reached with the JavaScript of which it has the types", () => {
  const folder = folderOf({
    "a.mjs": `import "./b.mjs";`, "a.d.mts": "", "b.mjs": "", "b.d.mts": "", "c.d.ts": "", "d.jsx": "", "d.d.ts": "",
  });
  const words = ["--entry", "a.mjs", "--entry", "d.jsx", "--unreached", "--types", "."];
  const { stdout, status } = run("files", words, { cwd: folder });
  assert.deepEqual([stdout, status], ["c.d.ts\n", 1]);
});

test("what the known parts of an argument match may be reached, and what that leads to", () => {
  const files = {
    "main.ts": "import(`./pages/${x}.js`);\nimport(`@/views/${x}/index`);\nrequire(\"./one/\" + x);\n",
    "pages/a.ts": `import "../deep";`, "pages/sub/b.js": "", "pages/c.css.ts": "", "page.js": "", "deep.js": "",
    "src/views/v/index.tsx": "", "src/views/v/other.tsx": "", "one/x.cjs": "",
  };
  const at = (/** @type {string} */ text, /** @type {string} */ place) => `: may be reached: template of ${text} at main.ts:${place}`;
  const pages = at("./pages/${..}.js", "1:8");
  assert.deepEqual(unreached(files), withStatus([
    "page.js", "src/views/v/other.tsx",
    "deep.js: may be reached: import of ../deep at pages/a.ts:1:8",
    `one/x.cjs${at("./one/${..}", "3:9")}`, `pages/a.ts${pages}`, `pages/c.css.ts${pages}`, `pages/sub/b.js${pages}`,
    `src/views/v/index.tsx${at("@/views/${..}/index", "2:8")}`,
  ], 1));
});

test("an argument of which too little is known is no reason", () => {
  const files = { "main.js": "import(x); import(`lodash/${x}`); import(`${a}/${b}`);", "a.js": "" };
  assert.deepEqual(unreached(files), withStatus(["a.js"], 1));
  assert.deepEqual(unreached({ "b/main.js": "import(`${x}.js`)", "b/a.ts": "", "b/c/d.js": "", "e.js": "", "main.js": `import "./b/main.js"` }), withStatus([
    "e.js", ...["b/a.ts", "b/c/d.js"].map((each) => `${each}: may be reached: template of ${"${..}"}.js at b/main.js:1:8`),
  ], 1));
  assert.deepEqual(unreached({ "main.js": "import(`${x}/plugin.js`)", "a/plugin.ts": "", "a/other.ts": "" }), withStatus([
    "a/other.ts", "a/plugin.ts: may be reached: template of ${..}/plugin.js at main.js:1:8",
  ], 1));
  assert.deepEqual(unreached({ "main.js": "import(`./sub/${x}.js?raw`)", "sub/d.js": "", "e.js": "" }), withStatus([
    "e.js", "sub/d.js: may be reached: template of ./sub/${..}.js?raw at main.js:1:8",
  ], 1));
});

/** Calls that name `./a.js` or a folder with it, and the kind of each. */
const CALLS = {
  'new URL("./a.js", import.meta.url)': "new URL of ./a.js",
  'new URL("a.js", import.meta.url)': "new URL of a.js",
  "new URL(`./${name}.js`, import.meta.url)": "new URL of ./${..}.js",
  'new Worker("./a.js")': "new Worker of ./a.js",
  'new SharedWorker( "/a.js" )': "new Worker of /a.js",
  'require.resolve("./a")': "require.resolve of ./a",
  'import.meta.resolve("./a.js")': "import.meta.resolve of ./a.js",
  'import.meta.glob("./*.js")': "import.meta.glob of ./*.js",
  'import.meta.glob<Module>(["!./b.js", "./*.js"], { eager: true })': "import.meta.glob of ./*.js",
  'require.context("./", true, /\\.js$/)': "require.context of ./",
  'jest.mock("./a", () => ({}))': "jest.mock of ./a",
  'vi.mock("./a.js")': "jest.mock of ./a.js",
  'fork(path.join(__dirname, "a.js"))': "__dirname of a.js",
  'run(__dirname + "/a.js")': "__dirname of /a.js",
};

test("calls and names that a search finds are reasons", () => {
  for (const [call, reason] of Object.entries(CALLS)) {
    const { lines, status } = unreached({ "main.ts": `const x = 1;\n  ${call};\n`, "a.js": "", "b/c.md": "" });
    assert.deepEqual([lines.map((line) => line.replace(/:\d+$/, "")), status], [
      [`a.js: may be reached: ${reason} at main.ts:2`], 0,
    ], call);
  }
});

test("a call in a module that isn't reached is no reason", () => {
  assert.deepEqual(unreached({ "main.js": "", "b.js": `new URL("./a.js", import.meta.url)`, "a.js": "" }), withStatus([
    "a.js", "b.js",
  ], 1));
});

test("what a page's scripts name may be reached, and a component is dead where nothing names it", () => {
  const files = {
    "main.js": `import "./App.vue";`, "App.vue": `<script setup>\nimport A from "./a";\n</script>`, "a.ts": "",
    "B.svelte": `<script>import("./b.js")</script>`, "b.js": "", "c.astro": `---\nimport "./c.js";\n---\n`, "c.js": "",
    "d.html": `<script type="module" src="/d.js"></script>`, "d.js": "", "e.js": "",
    "f/g.html": `<script src=h/i.js?j></script>`, "f/h/i.js": "",
  };
  assert.deepEqual(unreached(files), withStatus([
    "B.svelte", "b.js", "c.astro", "c.js", "e.js", "d.js: may be reached: script of /d.js at d.html:1:27",
    "f/h/i.js: may be reached: script of h/i.js?j at f/g.html:1:13",
  ], 1));
});

test("what a reached file with a fault names may be reached, and the last line says that there is one", () => {
  const { lines, stderr, status } = unreached({
    "main.js": `import "./wrong.js";`, "wrong.js": `import "./a.js";\nlet = ;\n`, "a.js": "", "b.js": "",
  });
  assert.deepEqual(lines, ["b.js", "a.js: may be reached: fault of ./a.js at wrong.js:1:1"]);
  assert.equal(status, 1);
  assert.match(stderr, /\nmodinfo-files: of what is reached 1 file can't be read or parsed: more may be reached than is known\n$/);
});

test("a relative name of a reached module that leads nowhere is in the last line, and the status is 1", () => {
  const files = { "main.js": `import "./none.js"; require("../no"); import "p";`, "a.js": "" };
  const note = `${NAME}: of what is reached 2 relative names lead to no file: more may be reached than is known\n`;
  assert.deepEqual(unreached(files), withStatus(["a.js"], 1, note));
  const { "a.js": _, ...main } = files;
  assert.deepEqual(unreached(main), withStatus([], 1, note));
  const listed = run("files", ["--entry", "main.js"], { cwd: folderOf(files) });
  assert.deepEqual([listed.stdout, listed.stderr, listed.status], ["main.js\n", note, 1]);
  assert.deepEqual(unreached({ ...files, "main.js": "", "b.js": files["main.js"] }), withStatus(["a.js", "b.js"], 1));
});

test("names of a bundler's alias that lead to no file are in the last line, with what their tails match", () => {
  const files = { "main.js": `import "@/none"; import "virtual:none"; import "~/lib/a"; import "@scope/p";`, "src/lib/a.js": "", "b.js": "" };
  assert.deepEqual(unreached(files), withStatus(
    ["b.js", "src/lib/a.js: may be reached: alias of ~/lib/a at main.js:1:48"], 1,
    `${NAME}: of what is reached 3 names of an alias lead to no file: more may be reached than is known\n`,
  ));
});

test("--exclude follows and doesn't list", () => {
  const files = {
    "main.js": `import "./gen/a.js";`, "gen/a.js": `import "../b.js";`, "b.js": "",
    "x.test.js": `import "./helper.js";`, "helper.js": "",
  };
  assert.deepEqual(unreached(files, ["--exclude", "gen"]), withStatus(["helper.js", "x.test.js"], 1));
  assert.deepEqual(unreached(files, ["--exclude", "gen", "--exclude", "*.test.js"]), withStatus([
    "helper.js: may be reached: excluded of ./helper.js at x.test.js:1:8",
  ]));
  const listed = run("files", ["--entry", "main.js", "--exclude", "gen"], { cwd: folderOf(files) });
  assert.deepEqual([listed.stdout, listed.status], ["main.js\nb.js\n", 0]);
});

test("a fault of an excluded file is reported where an entry reaches it alone", () => {
  const files = { "main.js": "", "fixtures/wrong.js": `import "../a.js"; let = ;`, "a.js": "" };
  assert.deepEqual(unreached(files, ["--exclude", "fixtures"]), withStatus([
    "a.js: may be reached: fault of ../a.js at fixtures/wrong.js:1:1",
  ]));
  const reachedOne = unreached({ ...files, "main.js": `import "./fixtures/wrong.js";` }, ["--exclude", "fixtures"]);
  assert.deepEqual([reachedOne.lines.length, reachedOne.status], [1, 1]);
  assert.match(reachedOne.stderr, /1 file can't be read or parsed/);
});

test("--ignore doesn't follow, and what an ignored file that is reached names may be reached", () => {
  const files = {
    "main.js": `import "./gen/a.js";`, "gen/a.js": `import "../b.js";`, "b.js": "", "gen/c.js": `import "../d.js";`, "d.js": "",
  };
  assert.deepEqual(unreached(files, ["--ignore", "gen"]), withStatus([
    "d.js", "b.js: may be reached: ignored of ../b.js at gen/a.js:1:1",
  ], 1));
  const listed = run("files", ["--entry", "main.js", "--ignore", "gen"], { cwd: folderOf(files) });
  assert.deepEqual([listed.stdout, listed.status], ["main.js\n", 0]);
});

test("--gitignore follows and doesn't list", () => {
  const folder = folderOf({ ".gitignore": "gen\n", "main.js": `import "./gen/a";`, "gen/a.js": `import "../b";`, "b.js": "" });
  execFileSync("git", ["init", "--quiet", folder]);
  const { stdout, status } = run("files", ["--entry", "main.js", "--unreached", "--gitignore", "."], { cwd: folder });
  assert.deepEqual([stdout, status], ["", 0]);
});

test("--no-dynamic doesn't count import(..)", () => {
  const files = { "main.js": `import("./a.js"); require("./b.js");`, "a.js": "", "b.js": "" };
  assert.deepEqual(unreached(files), withStatus([]));
  assert.deepEqual(unreached(files, ["--no-dynamic"]), withStatus(["a.js"], 1));
  const folder = folderOf({ "a.js": `import("./b.js");`, "b.js": `import "./a.js";` });
  const status = (/** @type {string[]} */ words) => run("files", ["--cycles", ...words, "."], { cwd: folder }).status;
  assert.deepEqual([status([]), status(["--no-dynamic"])], [1, 0]);
});

test("the classes as JSON", () => {
  const folder = folderOf({
    "main.ts": `import type { T } from "./t";\nimport(\`./p/\${x}\`);`, "t.ts": "", "p/a.js": "", "dead.js": "",
  });
  const { stdout } = run("files", ["--entry", "main.ts", "--unreached", "--json", "."], { cwd: folder });
  const url = (/** @type {string} */ path) => urlOf(folder, path);
  assert.deepEqual(JSON.parse(stdout), {
    entries: [url("main.ts")], unreached: [url("dead.js")],
    mayBeReached: [{
      module: url("p/a.js"), reason: { kind: "template", module: url("main.ts"), position: [1, 7], text: "./p/${..}" },
    }],
    byTypes: [{
      module: url("t.ts"),
      by: {
        module: url("main.ts"), kind: "type", specifier: "./t", range: [[0, 23], [0, 28]],
        resolved: { class: "file", file: url("t.ts"), by: "bundler" },
      },
    }],
  });
});

/**
 * What the entries of a folder reach.
 * @param {string} folder
 * @param {string} entry
 */
function reached(folder, entry) {
  const { stdout, stderr, status } = run("files", ["--entry", entry], { cwd: folder });
  return { lines: stdout.split("\n").slice(0, -1), stderr, status };
}

test("--entry takes a folder with a package.json, whose members name entries", () => {
  const folder = folderOf({
    "package.json": JSON.stringify({
      exports: {
        ".": { types: "./types.d.ts", import: "./src/index.mjs", require: ["./src/index.cjs"] }, "./x/*": "./src/x/*.js",
        "./package.json": "./package.json", "./style": "./style.css", "./hidden": null,
      },
      main: "old", bin: { tool: "./bin/tool.js" }, browser: "./src/browser.js",
    }),
    "src/index.mjs": `import "./deep.mjs";`, "src/deep.mjs": "", "src/index.cjs": "", "src/x/a.js": "", "src/x/b.js": "",
    "old/index.js": "", "bin/tool.js": "", "src/browser.js": "", "types.d.ts": "export {};", "dead.js": "",
  });
  const { lines, status, stderr } = reached(folder, ".");
  assert.deepEqual([lines.sort(), stderr, status], [[
    "bin/tool.js", "old/index.js", "src/browser.js", "src/deep.mjs", "src/index.cjs", "src/index.mjs", "src/x/a.js", "src/x/b.js",
  ], "", 0]);
  assert.deepEqual(reached(folderOf({ "package.json": "{}", "index.js": "" }), ".").lines, ["index.js"]);
  const many = Object.fromEntries(Array.from({ length: 130_000 }, (_, at) => [`c${at}`, "./a.js"]));
  const large = folderOf({ "package.json": JSON.stringify({ exports: many }), "a.js": "" });
  assert.deepEqual(reached(large, "."), withStatus(["a.js"]));
});

test("a script without an ending that a package.json names is searched, and its relative imports are entries", () => {
  const files = {
    "package.json": `{"main":"lib/index.js","bin":{"a":"bin/a","b":"./bin/b"}}`, "lib/index.js": "",
    "bin/a": `#!/usr/bin/env node\nrequire("./b"); require("../lib/cli")(require("fs"), require("p"), require("../lib/" + x));`,
    "bin/b": `import "./a"; import "../lib/b";`, "lib/cli.js": `require("./deep");`, "lib/deep.js": "", "lib/b.mjs": "",
    "lib/x.js": "", "dead.js": "", "node_modules/p/index.js": "",
  };
  const folder = folderOf(files);
  assert.deepEqual(reached(folder, "."), withStatus(["lib/index.js", "lib/cli.js", "lib/b.mjs", "lib/deep.js"]));
  const { stdout, status } = run("files", ["--entry", ".", "--unreached", "."], { cwd: folder });
  assert.deepEqual([stdout, status], ["dead.js\nlib/x.js: may be reached: script of ../lib/${..} at bin/a:2:68\n", 1]);
  const alone = folderOf({ ...files, "package.json": `{"bin":"bin/a"}`, "bin/b": Buffer.of(0x7f, 0x45, 0x4c, 0x46, 0) });
  assert.deepEqual(reached(alone, "."), withStatus(["lib/cli.js", "lib/deep.js"]));
  assert.deepEqual(reached(folderOf({ ...files, "package.json": `{"bin":"bin/a"}`, "bin/a": "#!/bin/sh\n" }), "."), {
    lines: [], stderr: `${NAME}: package.json: it names no module\n`, status: 2,
  });
});

test("an entry of a package.json that isn't there is said, and it is an error where there is no other", () => {
  const some = folderOf({ "package.json": `{"main":"./a.js","bin":"./dist/b.js"}`, "a.js": "" });
  assert.deepEqual(reached(some, "."), {
    lines: ["a.js"], stderr: `${NAME}: warning: package.json: ./dist/b.js: entry not found\n`, status: 1,
  });
  for (const [files, message] of /** @type {[Record<string, string>, string][]} */ ([
    [{ "package.json": `{"main":"./dist/b.js"}` }, "package.json: files not found: ./dist/b.js"],
    [{ "package.json": `{"main":"a\\u0000.js"}` }, "package.json: files not found: ./a\\x00.js"],
    [{ "package.json": "[" }, "package.json: Unexpected end of JSON input"],
    [{ "a.js": "" }, "package.json: no such file: an entry is a file, or a folder with a package.json"],
  ])) {
    assert.deepEqual(reached(folderOf(files), "."), { lines: [], stderr: `${NAME}: ${message}\n`, status: 2 });
  }
});

test("the scripts of a page are entries", () => {
  const folder = folderOf({
    "web/index.html": `<!-- <script src="./old.js"></script> -->\n<script type="module" src="/src/main.ts"></script>
      <script src="https://example.org/x.js"></script><script type=module>import "./inline.js";</script>`,
    "web/src/main.ts": `import "./a";`, "web/src/a.ts": "", "web/inline.js": "", "web/old.js": "",
  });
  assert.deepEqual(reached(folder, join("web", "index.html")).lines, [
    "web/index.html", "web/src/main.ts", "web/inline.js", "web/src/a.ts",
  ]);
});

test("a script of a page has a URL that is relative to the page, in any spelling that HTML has", () => {
  for (const script of [
    "<script src='js/app.js?v=3'></script>", `<script src="./js/app.js?v=3#x"></script>`, "<script src=js/app.js?v=3></script>",
    "<SCRIPT defer src = ./js/app.js#x async>", `<script type=module>import "./js/app.js?v=3"</script>`,
    `<!--><script src="js/app.js"></script><!-- <script src="old.js"></script> -->`, `<script src="js/app.js"></script><!--`,
    `<!-- <!-- --><script src="js/app.js"></script><!-- a -- > <script src="old.js"></script> -->`,
    `<script integrity="sha512-${"A".repeat(86)}==" crossorigin src="js/app.js"></script>`,
  ]) {
    const folder = folderOf({ "index.html": script, "js/app.js": "", "old.js": "", "index.js": "" });
    assert.deepEqual(reached(folder, "index.html"), withStatus(["index.html", "js/app.js"]), script);
  }
});

/**
 * Projects whose every module is in use, by names that node itself doesn't find; each with its entry.
 * @type {Record<string, { files: Record<string, string>, words?: string[] }>}
 */
const BUNDLED = {
  "names without an ending in ES modules, as Vite has them": {
    files: {
      "package.json": `{"type":"module"}`, "main.ts": `import App from "./App"; import "./lib"; import "./style.css";`,
      "App.tsx": `import { a } from "./lib/a.js";`, "lib/index.ts": "", "lib/a.ts": "", "style.css": "",
    },
  },
  "paths of a configuration for bundlers": {
    files: {
      "tsconfig.json": `{"compilerOptions":{"module":"ESNext","moduleResolution":"bundler","paths":{"@/*":["./src/*"]}}}`,
      "main.ts": `import "@/a";`, "src/a.ts": `import "@/b/c";`, "src/b/c.ts": "",
    },
  },
  "workspaces whose output isn't built": {
    files: {
      "package.json": `{"workspaces":["packages/*"]}`, "main.ts": `import "w";`,
      "packages/w/package.json": `{"name":"w","main":"./dist/index.js"}`,
      "packages/w/tsconfig.json": `{"compilerOptions":{"outDir":"dist","rootDir":"src"}}`,
      "packages/w/src/index.ts": `import "./deep";`, "packages/w/src/deep.ts": "",
    },
  },
  "what browser has in place of a module": {
    files: {
      "package.json": `{"browser":{"fs":"./browser.js"}}`, "main.js": `import "fs";`, "browser.js": "",
    },
    words: ["--conditions", "browser"],
  },
  "import maps of Deno": {
    files: { "deno.json": `{"imports":{"~/":"./src/"}}`, "main.ts": `import "~/a.ts";`, "src/a.ts": "" },
  },
  "queries of bundlers": { files: { "main.ts": `import W from "./w?worker"; import "./x.ts?raw";`, "w.ts": "", "x.ts": "" } },
};

test("what bundlers' rules and configurations find counts as reached", () => {
  for (const [name, { files, words = [] }] of Object.entries(BUNDLED)) {
    const { lines, status } = unreached(files, words);
    assert.deepEqual([lines, status], [[], 0], name);
  }
});

for (const name of ["modinfo", "modinfo-graph", "modinfo-report"]) {
  test(`the sources of ${name} are all in use`, () => {
    const cwd = fileURLToPath(new URL(`../${name}`, import.meta.url));
    const { stdout, stderr, status } = run("files", ["--entry", ".", "--unreached", "src"], { cwd });
    assert.deepEqual(stdout.split("\n").filter((line) => line !== "" && !line.includes(": ")), []);
    assert.deepEqual([stderr, status], ["", 0]);
  });
}

test("the page of a report has the classes and the cycles that the command has", () => {
  const folder = folderOf({
    "main.tsx": `/** @jsxImportSource ./jsx */\nimport "./a"; import type { T } from "./t"; import(\`./p/\${x}\`); require("./" + "b");`,
    "jsx/jsx-runtime.ts": `import "../main";`, "a.ts": `import { b } from "./b";`, "b.ts": `import { a } from "./a";`,
    "t.ts": `import type { U } from "./u";`, "u.ts": `import { T } from "./t";`, "p/one.ts": "", "dead.ts": "",
  });
  const ask = (/** @type {string[]} */ words) => {
    return JSON.parse(run("files", ["--json", "--entry", "main.tsx", ...words, "."], { cwd: folder }).stdout);
  };
  run("report", ["--entry", "main.tsx", "."], { cwd: folder });
  const page = readFileSync(join(folder, "report.html"), "utf8");
  const index = JSON.parse(/id="data">(.*?)<\/script>/s.exec(page)?.[1] ?? "");
  const keyOf = (/** @type {number} */ at) => {
    const inFolder = index.folders[index.inFolder[at]];
    return urlOf(folder, inFolder === "." ? index.modules[at] : `${inFolder}/${index.modules[at]}`);
  };
  const { cycles, typeCycles } = ask(["--cycles", "--types"]);
  const sorted = (/** @type {any[]} */ each) => each.map(({ modules }) => modules.map(String).sort()).sort();
  const shown = (/** @type {boolean} */ ran) => index.lists.cycles.filter((/** @type {any} */ { isRun }) => isRun === ran)
    .map((/** @type {any} */ { modules }) => ({ modules: modules.map(keyOf) }));
  assert.deepEqual([sorted(shown(true)), sorted(shown(false))], [sorted(cycles), sorted(typeCycles)]);
  assert.ok(cycles.length >= 1 && typeCycles.length >= 1);
  const classes = ask(["--unreached"]);
  const { unreached: dead, mayBeReached, byTypes } = index.lists;
  const keysOf = (/** @type {any[]} */ list) => list.map(({ module }) => (typeof module === "number" ? keyOf(module) : module));
  assert.deepEqual(
    [dead.map(keyOf), keysOf(mayBeReached), keysOf(byTypes)],
    [classes.unreached, keysOf(classes.mayBeReached), keysOf(classes.byTypes)],
  );
  assert.deepEqual(classes.unreached, [urlOf(folder, "dead.ts")]);
});

test("a cycle of TypeScript files may be of types alone, and the last line says so", () => {
  const files = { "a.ts": `import { B } from "./b";`, "b.ts": `import { A } from "./a";` };
  const cycles = (/** @type {Record<string, string>} */ each) => run("files", ["--cycles", "."], { cwd: folderOf(each) });
  const why = "a compiler removes imports of TypeScript whose names are types";
  assert.deepEqual(cycles(files), {
    stdout: "a.ts -> b.ts -> a.ts\n", stderr: `${NAME}: 1 of 1 cycles may be of types alone: ${why}\n`, status: 1,
  });
  assert.equal(cycles({ "a.ts": `import "./b";`, "b.ts": `import "./a";` }).stderr, "");
  assert.equal(cycles({ "a.js": `import { b } from "./b.js";`, "b.js": `import { a } from "./a.js";` }).stderr, "");
  const { stdout, status } = cycles({ ...files, "b.ts": `import type { A } from "./a";` });
  assert.deepEqual([stdout, status], ["", 0]);
});

test("texts that are made to take long are searched in a moment", () => {
  const parts = ["<script src=", "new ", "import . meta", "import.meta.glob<", "jest.mock<", "`${", "<script ", "require ", "__dirname,\"a\"", "from "];
  // A search whose time grows faster than the text would take hours.
  for (const part of parts) {
    looseImports(part.repeat(200_000 / part.length), "script");
    looseImports(`${part}${" ".repeat(200_000)}`, "script");
  }
  for (const part of ["<!--", "<script ", "<script a='", "<script src=a>", "<a><b>", "<a1 ", "import a\n\n", "{/*", "```\n"]) {
    for (const path of ["a.html", "a.vue", "a.astro", "a.mdx"]) {
      scriptsOf(part.repeat(200_000 / part.length), path);
    }
  }
  const page = `<script src=/a.js></script>${"<!--".repeat(200_000)}`;
  assert.deepEqual(scriptsOf(page, "a.html").sources.map(({ name }) => name), ["/a.js"]);
  for (const part of [`"./`, `'a/`, "/[", "`${", "/*", "//", `"*`, "'"]) {
    literalsOf(part.repeat(200_000 / part.length));
    commentsOf(part.repeat(200_000 / part.length))(0);
  }
});
