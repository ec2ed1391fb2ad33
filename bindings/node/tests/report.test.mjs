/** From files and folders to a page, as a user would. */

import assert from "node:assert/strict";
import { existsSync, mkdirSync, readFileSync } from "node:fs";
import { join } from "node:path";
import { test } from "node:test";
import { inflateSync } from "node:zlib";

import { readLibraries } from "../modinfo-report/dist/libraries.js";
import { pageOf } from "../modinfo-report/dist/page.js";
import { folderOf, run } from "./run_commands.mjs";
import { unchecked } from "./unchecked.mjs";

const NAME = "modinfo-report";

/** Two modules, of which one imports the other, and something that isn't there. */
const PROJECT = {
  "src/main.ts": `import "./b.js";\nimport "./none.js";\nimport("fs");\n`,
  "src/b.ts": "export const b = 1;\n",
  "src/lonely.js": "",
};

/**
 * Runs the command in a folder.
 * @param {string} folder
 * @param {string[]} words
 */
function make(folder, words) {
  return run("report", words, { cwd: folder });
}

/**
 * Returns the data of a page: its index, in which each module has its path and its compressed part.
 * @param {string} file
 * @returns {any}
 */
function dataOf(file) {
  const page = readFileSync(file, "utf8");
  const [, json = ""] = /<script type="application\/json" id="data">(.*?)<\/script>/s.exec(page) ?? [];
  const index = JSON.parse(json);
  const parts = [...page.matchAll(/<script type="text\/plain" id="part-\d+">(.*?)<\/script>/gs)];
  const details = parts.flatMap(([, text]) => JSON.parse(String(inflateSync(Buffer.from(text, "base64")))));
  const modules = index.modules.map((/** @type {string} */ name, /** @type {number} */ at) => {
    const folder = index.folders[index.inFolder[at]];
    return { ...details[at], path: folder === "." ? name : `${folder}/${name}`, fault: index.faults[at] };
  });
  return { ...index, modules };
}

/** @param {{ path: string }[]} modules */
function pathsIn(modules) {
  return modules.map(({ path }) => path);
}

test("the page has the modules, their edges and the lists", () => {
  const folder = folderOf(PROJECT);
  const result = make(folder, ["--entry", "src/main.ts", "src"]);
  const gaps = `${NAME}: of what is reached 1 relative name leads to no file: more may be reached than is known\n`;
  assert.deepEqual(result, { stdout: "", stderr: gaps, status: 1 });
  const { title, modules, edges, edgeCount, entries, lists, bytes } = dataOf(join(folder, "report.html"));
  assert.deepEqual([title, edgeCount, entries, bytes], ["src", 1, [2], [20, 0, 51]]);
  assert.deepEqual(pathsIn(modules), ["b.ts", "lonely.js", "main.ts"]);
  assert.deepEqual(modules[2].rows.map((/** @type {any} */ row) => [row.name, row.to]), [
    ["./b.js", { module: 0 }], ["./none.js", { class: "missing" }], ["fs", { class: "builtin" }],
  ]);
  // The target, the kind, the row and the line.
  assert.deepEqual(edges, [[], [], [0, 0, 0, 0]]);
  assert.deepEqual(lists.missing, [{ module: 2, row: 1, line: 1, kind: "static", name: "./none.js" }]);
  assert.deepEqual(lists.unreached, [1]);
});

test("without an entry it has what no module leads to", () => {
  const folder = folderOf({
    ...PROJECT, "src/d.js": "", "src/d.d.ts": "export {};\n", "src/e.ts": `import "./d.js";\nimport "./e.js";\n`,
  });
  make(folder, ["src"]);
  const { modules, lists } = dataOf(join(folder, "report.html"));
  assert.deepEqual(pathsIn(lists.unreached.map((/** @type {number} */ at) => modules[at])), ["e.ts", "lonely.js", "main.ts"]);
});

test("no path from outside of the folder is in the page", () => {
  const folder = folderOf({ ...PROJECT, "src/f.ts": `import "../other/g.js";\n`, "other/g.ts": "" });
  make(folder, ["src"]);
  const data = dataOf(join(folder, "report.html"));
  assert.ok(!readFileSync(join(folder, "report.html"), "utf8").includes(folder));
  assert.ok(!JSON.stringify(data).includes(folder));
  const { modules } = data;
  assert.deepEqual(modules[1].rows[0].to, { class: "file", file: "../other/g.ts" });
});

test("a file that is named twice is there once, and so is what is reported of it", () => {
  const folder = folderOf({ ...PROJECT, "src/wrong.ts": "let b = ;\n" });
  const words = ["src", "src/b.ts", "--entry", "src/wrong.ts"];
  const { stderr } = make(folder, words);
  const excerpt = "  | let b = ;\n  |         ^";
  const gaps = `${NAME}: of what is reached 1 file can't be read or parsed: more may be reached than is known\n`;
  assert.equal(stderr, `${NAME}: src/wrong.ts:1:9: expected an expression\n${excerpt}\n${gaps}`);
  const { modules, entries } = dataOf(join(folder, "report.html"));
  assert.deepEqual([modules.length, entries], [4, [3]]);
});

test("the page is the same each time", () => {
  const folder = folderOf(PROJECT);
  for (const [name, jobs] of [["one.html", "1"], ["two.html", "3"]]) {
    make(folder, ["-o", name, "--jobs", jobs, "src"]);
  }
  assert.equal(readFileSync(join(folder, "one.html"), "utf8"), readFileSync(join(folder, "two.html"), "utf8"));
});

test("a file without an answer is reported, is in the page with its position, and the status is 1", () => {
  const folder = folderOf({ "a.ts": "let a = 1;\nlet b = ;\n", "b.ts": Buffer.of(0xff), "c.ts": "" });
  const { stderr, status } = make(folder, ["."]);
  const excerpt = "  | let b = ;\n  |         ^";
  assert.equal(
    stderr, `${NAME}: a.ts:2:9: expected an expression\n${excerpt}\n${NAME}: b.ts: the file isn't UTF-8\n`,
  );
  assert.equal(status, 1);
  const { modules, lists } = dataOf(join(folder, "report.html"));
  assert.deepEqual(lists.faults, [0, 1]);
  assert.deepEqual([modules[0].fault.fault, modules[0].fault.line, modules[0].fault.column], ["Syntax", 2, 9]);
  assert.deepEqual(modules[0].marks, [[19, 20, -1, "fault"]]);
  assert.deepEqual([modules[1].fault.fault, modules[1].source], ["Input", undefined]);
});

test("without a library the page is made without what it draws, and names the package that has it", () => {
  const [layout, sizes] = readLibraries([folderOf(), folderOf()]);
  assert.equal(layout.fault, "dagre not found: the package modinfo-report has it, as has Debian's node-dagre-layout");
  assert.equal(sizes.fault, "d3-hierarchy not found: the package modinfo-report has it, as has Debian's node-d3-hierarchy");
  const page = pageOf(unchecked({ title: "a" }), [], [layout, sizes]);
  assert.ok(page.includes(`"absent":{"dagre":"dagre not found`));
  assert.ok(!page.includes('id="layout"'));
});

test("--dot writes the graph for Graphviz", () => {
  const folder = folderOf(PROJECT);
  make(folder, ["--dot", "graph.dot", "src"]);
  const dot = readFileSync(join(folder, "graph.dot"), "utf8");
  assert.match(dot, /m2 \[label="main\.ts"/);
  assert.match(dot, /m2 -> m0 /);
});

test("what can't be written is an error", () => {
  const folder = folderOf(PROJECT);
  mkdirSync(join(folder, "page"));
  for (const [file, message] of [["page", "EISDIR: illegal operation on a directory"], ["none/a.html", "ENOENT: no such file or directory"]]) {
    const { stderr, status } = make(folder, ["-o", file, "src"]);
    assert.deepEqual([stderr, status], [`${NAME}: ${file}: ${message}\n`, 1]);
  }
});

test("other words are answered by the usage, and nothing is written", () => {
  const folder = folderOf(PROJECT);
  for (const words of [[], ["--none", "src"], ["--jobs", "0", "src"], ["--entry", "src", "src"], ["--entry"], ["-o"]]) {
    const { stdout, stderr, status } = run("report", words, { cwd: folder });
    assert.deepEqual([stdout, status], ["", 2], words.join(" "));
    assert.match(stderr, new RegExp(`^${NAME}: .+`));
  }
  assert.ok(!existsSync(join(folder, "report.html")));
  assert.match(run("report", ["--help"]).stdout, /^usage: modinfo-report /);
});

test("no text ends an element of the page", () => {
  const evil = `</script><script>x</script><!--<script>]]>&lt;\u2028`;
  const index = { title: "<b>&\"", evil };
  const page = pageOf(unchecked(index), [unchecked({ evil })], readLibraries([folderOf(), folderOf()]));
  assert.deepEqual(page.match(/<\/?(?:script|style|title|b)\b/g), [
    "<title", "</title", "<style", "</style",
    "<script", "</script", "<script", "</script", "<script", "</script",
  ]);
  assert.ok(page.includes("<title>Dependencies of &lt;b&gt;&amp;\"</title>"));
  const [, json = ""] = /id="data">(.*?)<\/script>/s.exec(page) ?? [];
  assert.equal(JSON.parse(json).evil, evil);
});
