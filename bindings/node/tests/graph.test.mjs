/** Questions about the graph of files, as a user asks them. */

import assert from "node:assert/strict";
import { execFileSync } from "node:child_process";
import { symlinkSync } from "node:fs";
import { join } from "node:path";
import { test } from "node:test";
import { pathToFileURL } from "node:url";

import { folderOf, run, urlOf } from "./run_commands.mjs";

const NAME = "modinfo-files";

/**
 * What modinfo-files prints in a folder, as lines; its error output and status have to be these.
 * @param {string[]} words
 * @param {string} cwd
 * @param {{ stderr?: string, status?: number }} expected
 */
function lines(words, cwd, { stderr = "", status = 0 } = {}) {
  const result = run("files", words, { cwd });
  assert.deepEqual([result.stderr, result.status], [stderr, status]);
  assert.ok(result.stdout === "" || result.stdout.endsWith("\n"));
  return result.stdout.split("\n").slice(0, -1);
}

/**
 * The modules that modinfo-files prints as JSON.
 * @param {string[]} words
 * @param {string} cwd
 * @returns {import("../modinfo-graph/dist/index.js").GraphModule[]}
 */
function modulesOf(words, cwd) {
  return JSON.parse(lines(["--json", ...words], cwd)[0]).modules;
}

/** `src/main.ts` reaches three modules, one of them by way of another folder. */
const PROJECT = {
  "src/main.ts": `import { b } from "./b.js";\nimport("./c.js");\nimport(name);\n`,
  "src/b.ts": `import "../lib/d.js";\nimport type { T } from "./only_types.js";\nexport const b = 1;\n`,
  "src/c.js": "export const c = 1;\n",
  "src/only_types.ts": "export type T = 1;\n",
  "src/lonely.js": `require("./c.js");\n`,
  "src/node_modules/e/index.js": "",
  "lib/d.js": `require("../src/from_lib");\n`,
  "lib/d.d.ts": "export {};\n",
  "src/from_lib.js": "",
};

test("--entry prints what the entry reaches, with nothing named besides", () => {
  const folder = folderOf(PROJECT);
  const reached = ["src/main.ts", "src/b.ts", "src/c.js", "lib/d.js", "src/from_lib.js"];
  assert.deepEqual(lines(["--entry", "src/main.ts"], folder), reached);
  assert.deepEqual(lines(["--entry", "src/lonely.js", "--entry", "src/c.js"], folder), ["src/lonely.js", "src/c.js"]);
  const inOther = lines(["--entry", join(folder, "src/lonely.js")], folderOf());
  assert.deepEqual(inOther, [join(folder, "src/lonely.js"), join(folder, "src/c.js")]);
  const zeros = run("files", ["-0", "--entry", "src/lonely.js"], { cwd: folder });
  assert.equal(zeros.stdout, "src/lonely.js\0src/c.js\0");
});

test("a cycle of what runs is one, whatever declarations lie beside", () => {
  const folder = folderOf({
    "a.js": `require("./b");`, "b.js": `require("./a");`, "a.d.ts": "export {};", "b.d.ts": "export {};",
  });
  assert.deepEqual(lines(["--cycles", "."], folder, { status: 1 }), ["a.js -> b.js -> a.js"]);
  const [{ references: [edge] }] = modulesOf(["a.js"], folder);
  assert.deepEqual(edge.resolved, {
    class: "file", file: urlOf(folder, "b.js"), types: urlOf(folder, "b.d.ts"), by: "node",
  });
});

test("a cycle through a type import is reported as such, and only with --types", () => {
  const folder = folderOf({
    "a.ts": `import { b } from "./b";`, "b.ts": `import type { A } from "./a";`,
    "c.ts": `import "./d"; import type { A } from "./a";`, "d.ts": `import "./c";`,
    "b.d.ts/none.js": "",
  });
  assert.deepEqual(lines(["--cycles", "."], folder, { status: 1 }), ["c.ts -> d.ts -> c.ts"]);
  assert.deepEqual(lines(["--cycles", "--types", "."], folder, { status: 1 }), [
    "c.ts -> d.ts -> c.ts", "by types alone: a.ts -> b.ts -> a.ts",
  ]);
  assert.deepEqual(lines(["--cycles", "a.ts", "b.ts"], folder), []);
  const data = JSON.parse(lines(["--cycles", "--types", "--json", "a.ts", "b.ts"], folder)[0]);
  const both = ["a.ts", "b.ts"].map((path) => urlOf(folder, path));
  assert.deepEqual(data, { cycles: [], typeCycles: [{ modules: both, path: both }] });
});

test("a workspace package that is required by name is reached by its main", () => {
  const folder = folderOf({
    "packages/w/package.json": `{"name":"w","main":"src/index.js","types":"types/index.d.ts"}`,
    "packages/w/src/index.js": `require("./deep");`, "packages/w/src/deep.js": "",
    "packages/w/types/index.d.ts": "export {};", "main.js": `require("w");`,
    "node_modules/other/index.js": "",
  });
  symlinkSync("../packages/w", join(folder, "node_modules/w"));
  assert.deepEqual(lines(["--entry", "main.js", "--unreached", "."], folder), []);
  assert.deepEqual(lines(["--entry", "main.js"], folder), [
    "main.js", "packages/w/src/index.js", "packages/w/src/deep.js",
  ]);
});

test("an entry that can't be read or parsed is an error, and nothing is listed", () => {
  const folder = folderOf({ ...PROJECT, "wrong.js": "let = ;", "text.txt": "" });
  const errors = {
    "none.js": "none.js: no such file or folder",
    "wrong.js": "wrong.js:1:7: expected an expression\n  | let = ;\n  |       ^",
    "text.txt": "text.txt: files with this ending are not read",
  };
  for (const [entry, message] of Object.entries(errors)) {
    const expected = { stderr: `${NAME}: ${message}\n`, status: 2 };
    assert.deepEqual(lines(["--entry", entry, "--unreached", "src"], folder, expected), []);
    assert.deepEqual(lines(["--entry", entry], folder, expected), []);
  }
});

test("JSON and arguments whose parts are known lead to their files", () => {
  const folder = folderOf({
    "a.js": `require("./package.json"); require("./b" + ".js");`, "b.js": "", "package.json": "{}",
  });
  assert.deepEqual(lines(["--entry", "a.js"], folder), ["a.js", "b.js"]);
  const [{ references }] = modulesOf(["a.js"], folder);
  const file = (/** @type {string} */ path) => ({ class: "file", file: urlOf(folder, path), by: "node" });
  assert.deepEqual(references.map(({ specifier, resolved }) => [specifier, resolved]), [
    ["./package.json", file("package.json")], ["./b.js", file("b.js")],
  ]);
});

test("a tsconfig.json that only refers to projects leaves each its options", () => {
  const folder = folderOf({
    "tsconfig.json": `{"files":[],"references":[{"path":"./tsconfig.app.json"}]}`,
    "tsconfig.app.json": `{"compilerOptions":{"paths":{"@/*":["./src/*"]}},"include":["src"]}`,
    "src/a.ts": `import "@/b";`, "src/b.ts": "",
  });
  assert.deepEqual(lines(["--entry", "src/a.ts"], folder), ["src/a.ts", "src/b.ts"]);
});

test("--tsconfig and --conditions", () => {
  const folder = folderOf({
    "other.json": `{"compilerOptions":{"paths":{"@/*":["./src/*"]}}}`,
    "src/a.ts": `import "@/b"; import "#c";`, "src/b.ts": "", "src/c.ts": `import "#c";`,
    "package.json": `{"type":"module","imports":{"#c":{"special":"./s.js","default":"./d.js"}}}`,
    "s.js": "", "d.js": "",
  });
  assert.deepEqual(lines(["--entry", "src/a.ts", "--tsconfig", "other.json"], folder), [
    "src/a.ts", "src/b.ts", "d.js",
  ]);
  assert.deepEqual(lines(["--entry", "src/c.ts", "--conditions", "special"], folder), ["src/c.ts", "s.js"]);
});

test("--missing prints what leads to no file, and what isn't installed", () => {
  const folder = folderOf({
    "a.ts": `import "./none.js";\nimport "p";\n  require("q/r");\nimport type { T } from "./t";\n`,
    "node_modules/p/package.json": "{}", "b.js": `require("fs"); require("./a.css"); require(x);`, "a.css": "",
  });
  const own = ["a.ts:1:8: ./none.js: not found", "a.ts:2:8: p: not found", "a.ts:3:11: q/r: the package q isn't installed"];
  assert.deepEqual(lines(["--missing", "."], folder, { status: 1 }), own);
  assert.deepEqual(lines(["--missing", "--types", "."], folder, { status: 1 }), [...own, "a.ts:4:24: ./t: not found"]);
  assert.deepEqual(lines(["--missing", "b.js"], folder), []);
  const { missing } = JSON.parse(lines(["--missing", "--json", "."], folder, { status: 1 })[0]);
  assert.deepEqual(missing[0], {
    module: urlOf(folder, "a.ts"), kind: "static", specifier: "./none.js", sideEffect: true, range: [[0, 7], [0, 18]],
    resolved: { class: "missing" },
  });
});

test("--missing says how many names in JavaScript bundlers' rules or configurations alone find", () => {
  const folder = folderOf({
    "package.json": `{"type":"module"}`, "a.js": `import "./b";\nimport "./b.js";\nimport "@/b";\n`, "b.js": "", "c.ts": `import "./b";`,
    "jsconfig.json": `{"compilerOptions":{"paths":{"@/*":["./*"]}}}`,
  });
  const stderr = `${NAME}: node itself finds 2 of the names in JavaScript nowhere (--json has foundByOthers)\n`;
  assert.deepEqual(lines(["--missing", "."], folder, { stderr }), []);
  const { missing, foundByOthers } = JSON.parse(lines(["--missing", "--json", "."], folder, { stderr })[0]);
  assert.deepEqual(missing, []);
  assert.deepEqual(foundByOthers.map((/** @type {any} */ { specifier, resolved: { by } }) => [specifier, by]), [
    ["./b", "bundler"], ["@/b", "tsconfig"],
  ]);
});

test("--why prints a shortest way, --dependents who leads to a file", () => {
  const folder = folderOf({ ...PROJECT, "src/c.js": `import "./style.css";`, "src/style.css": "" });
  assert.deepEqual(lines(["--entry", "src/main.ts", "--why", "src/from_lib.js"], folder), [
    "src/main.ts", "src/b.ts (./b.js at src/main.ts:1:19)", "lib/d.js (../lib/d.js at src/b.ts:1:8)",
    "src/from_lib.js (../src/from_lib at lib/d.js:1:9)",
  ]);
  assert.deepEqual(lines(["--entry", "src/main.ts", "--why", "src/style.css"], folder).at(-1),
    "src/style.css (./style.css at src/c.js:1:8)");
  const none = { stderr: `${NAME}: no entry reaches src/lonely.js\n`, status: 1 };
  assert.deepEqual(lines(["--entry", "src/main.ts", "--why", "src/lonely.js"], folder, none), []);
  assert.deepEqual(lines(["--dependents", "src/c.js", "."], folder), ["src/lonely.js", "src/main.ts"]);
  assert.deepEqual(lines(["--dependents", "src/only_types.ts", "--types", "."], folder), ["src/b.ts"]);
  const data = JSON.parse(lines(["--dependents", "src/style.css", "--json", "src"], folder)[0]);
  assert.deepEqual(data, { dependents: [urlOf(folder, "src/c.js")] });
});

test("--dot and --mermaid draw the graph", () => {
  const folder = folderOf({ 'a "b".js': `import "./c.js"; import("./c.js");`, "c.js": "" });
  const [first, second, ...others] = lines(["--dot", "."], folder);
  assert.deepEqual([first, second], ["digraph modules {", "  rankdir=LR;"]);
  assert.deepEqual(others.slice(-5), [
    String.raw`  m0 [label="a \"b\".js"];`, `  m1 [label="c.js"];`, `  m0 -> m1 [color="#0b5fb4", style=solid];`,
    `  m0 -> m1 [color="#b33f00", style=dashed, label=dynamic];`, "}",
  ]);
  assert.deepEqual(lines(["--mermaid", "."], folder), [
    "flowchart LR", `  m0["a #34;b#34;.js"]`, `  m1["c.js"]`, "  m0 --> m1", "  m0 -. dynamic .-> m1",
  ]);
});

test("--exclude leaves out files and folders, named and followed", () => {
  const folder = folderOf({
    "a.js": `import "./b.js"; import "./dist/c.js";`, "b.js": "", "b.test.js": "", "dist/c.js": "",
    "src/old/d.js": "", "src/e.js": "", "src/x/old/f.js": "",
  });
  /** @param {string[]} words */
  const files = (words) => modulesOf([...words, "."], folder)
    .map(({ specifier }) => specifier.slice(pathToFileURL(folder).href.length + 1));
  const all = ["a.js", "b.js", "b.test.js", "dist/c.js", "src/e.js", "src/old/d.js", "src/x/old/f.js"];
  assert.deepEqual(files([]), all);
  assert.deepEqual(files(["--exclude", "*.test.js", "--exclude", "dist"]), ["a.js", "b.js", ...all.slice(4)]);
  assert.deepEqual(files(["--exclude", "src/old/"]), all.filter((each) => each !== "src/old/d.js"));
  assert.deepEqual(files(["--exclude", "src/**/old"]), all.slice(0, 5));
  assert.deepEqual(files(["--exclude", "{a,b}.js", "--exclude", "./src/?.js"]), [
    "b.test.js", "dist/c.js", "src/old/d.js", "src/x/old/f.js",
  ]);
  assert.deepEqual(lines(["--entry", "a.js", "--exclude", "dist"], folder), ["a.js", "b.js"]);
});

test("--gitignore leaves out what git ignores", () => {
  const folder = folderOf({
    ".gitignore": "build/\n*.gen.js\n!keep.gen.js\n", "a.js": `import "./build/b.js";`, "build/b.js": "",
    "c.gen.js": "", "keep.gen.js": "",
  });
  const none = run("files", ["--gitignore", "."], { cwd: folder });
  assert.deepEqual([none.stdout, none.status], ["", 1]);
  assert.match(none.stderr, /^modinfo-files: can't find what git ignores in \.: .*not a git repository/);
  execFileSync("git", ["init", "--quiet", folder]);
  assert.deepEqual(lines(["--json", "--gitignore", "."], folder).map((line) => JSON.parse(line).modules.length), [2]);
  assert.deepEqual(lines(["--entry", "a.js", "--gitignore"], folder), ["a.js"]);
});
