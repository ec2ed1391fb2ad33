/** Components and pages as modules of the graph. */

import assert from "node:assert/strict";
import { test } from "node:test";

import { scriptsOf } from "../modinfo-graph/dist/graph/scripts.js";
import { folderOf, run } from "./run_commands.mjs";

/** The scripts of a text without what is before them in their line. */
function shown(/** @type {string} */ text, /** @type {string} */ path) {
  return scriptsOf(text, path).scripts.map(({ text: script, mediaType }) => `${mediaType}: ${script.trim()}`);
}

test("what is outside of a script is as many blanks, and line breaks stay", () => {
  const [{ text }] = scriptsOf("<p>\u{1f600}é\r\n\u2028x</p>\u2029<script>a</script>b", "a.html").scripts;
  assert.equal(text, "     \r\n\u2028     \u2029        a");
});

test("the scripts of components and pages, each with its media type", () => {
  assert.deepEqual(shown(`<script lang="ts">a</script><script setup lang=tsx>b</script><script>c</script>`, "a.vue"), [
    "TypeScript: a", "Tsx: b", "JavaScript: c",
  ]);
  assert.deepEqual(shown(`<template><script>no</script></template><docs><script>no</script></docs><script>a</script>`, "a.vue"), [
    "JavaScript: a",
  ]);
  assert.deepEqual(shown(`<script type="application/json">no</script><!-- <script>no</script> --><style><script>no</script></style>
    <script type="text/x-template">no</script><script type="importmap">{}</script><script type="text/babel">a</script>`, "a.html"), ["Jsx: a"]);
  assert.deepEqual(shown(`---\na\n---\n<script>b</script><script lang="coffee">no</script>`, "a.astro"), ["TypeScript: a", "TypeScript: b"]);
  assert.deepEqual(shown("import a\n\n~~~js\n\nimport no\n~~~\n\n{/*\n\nimport no\n*/}\n\nNo\nimport no\n", "a.mdx"), ["Jsx: import a"]);
});

const PROJECT = {
  "main.js": `import "./A.vue";`,
  "A.vue": `<p>\u{1f600} é</p><script lang="ts">import b from "./b";</script>\r\n<script>\nimport "./none";\n</script>`,
  "b.ts": `import A from "./A.vue"; import type { P } from "./p.astro";`,
  "p.astro": "---\nif (a) return;\nimport './b';\nconst { x } = Astro.props;\n---\n<p>{x}</p>",
  "wrong.svelte": "<p>\n</p>\n<script>\n  let x = ;\n</script>",
  "page.html": `<a>\n<script src="b.ts?v=1"></script><script src='gone.js'></script>`,
  "plain.html": "<p>", "data.html": `<script type="application/json">{}</script>`,
};

test("cycles, missing names and faults of components have their places in the file", () => {
  const { stdout, stderr, status } = run("files", ["--cycles", "--missing", "."], { cwd: folderOf(PROJECT) });
  assert.deepEqual([stdout.split("\n"), status], [[
    "cycles: 1", "  A.vue -> b.ts -> A.vue", "missing: 2", "  A.vue:3:8: ./none: not found", "  page.html:2:45: gone.js: not found", "",
  ], 1]);
  assert.match(stderr, /^modinfo-files: wrong\.svelte:4:11: .*\n {2}\| {3}let x = ;\n {2}\| {11}\^\n/);
});

test("the graph has the positions of what components name, and pages with scripts alone", () => {
  const { stdout } = run("files", ["--json", "."], { cwd: folderOf(PROJECT) });
  const modules = JSON.parse(stdout).modules.map((/** @type {any} */ { specifier, references, fault }) => [
    specifier.replace(/.*\//, ""), references.map((/** @type {any} */ each) => `${each.specifier} ${JSON.stringify(each.range)}`),
    ...(fault ? [fault.fault] : []),
  ]);
  assert.deepEqual(modules.filter((/** @type {any[]} */ [name]) => !/\.[jt]s$/.test(name)), [
    ["A.vue", ["./b [[0,42],[0,47]]", "./none [[2,7],[2,15]]"]],
    ["p.astro", ["./b [[2,7],[2,12]]"]],
    ["page.html", ["b.ts?v=1 [[1,12],[1,22]]", "gone.js [[1,44],[1,53]]"]],
    ["wrong.svelte", [], "Syntax"],
  ].sort());
});

test("components lead to a file, and are led to", () => {
  const { stdout } = run("files", ["--dependents", "b.ts", "."], { cwd: folderOf(PROJECT) });
  assert.deepEqual(stdout.split("\n"), ["A.vue", "p.astro", "page.html", ""]);
});
