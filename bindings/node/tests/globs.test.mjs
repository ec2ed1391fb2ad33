/** Globs, as `--exclude` takes them. */

import assert from "node:assert/strict";
import { test } from "node:test";

import { GlobFault, globMatcher } from "../modinfo-graph/dist/files/globs.js";
import { folderOf, run } from "./run_commands.mjs";

test("wildcards match names, folders and texts, and nothing else", () => {
  /** @type {[glob: string, yes: string[], no: string[]][]} */
  const expected = [
    ["*.test.ts", ["a.test.ts", "src/a.test.ts", "../a.test.ts"], ["a.ts", "a.test.ts/b", "atest.ts"]],
    ["dist", ["dist", "src/dist"], ["dist/a", "dists", "adist"]],
    ["dist/", ["dist", "src/dist"], ["dist/a"]],
    ["src/old/", ["src/old"], ["old", "a/src/old"]],
    ["src/**/old", ["src/old", "src/a/old", "src/a/b/old"], ["src/aold", "old", "src/old/a"]],
    ["src/**", ["src/a", "src/a/b"], ["src", "b/src/a"]],
    ["{a,b}.js", ["a.js", "x/b.js"], ["c.js", "{a,b}.js"]],
    ["./src/?.js", ["src/a.js"], ["src/ab.js", "src/.js", "src//.js"]],
    ["./a.js", ["a.js"], ["b/a.js"]],
    ["a[1]+(b).js", ["a[1]+(b).js"], ["a1b.js"]],
    ["*", ["a", "b/c"], []],
    ["./!x", ["!x"], ["x"]],
    ["a/*/b", ["a/x/b"], ["a/b", "a/x/y/b"]],
  ];
  for (const [glob, yes, no] of expected) {
    const matches = globMatcher(glob);
    assert.deepEqual([yes, no].map((paths) => paths.filter(matches)), [yes, []], glob);
  }
});

test("many wildcards take no long time", () => {
  // A search that tries each way would never end.
  assert.equal(globMatcher(`${"*a".repeat(50)}*b`)("a".repeat(5000)), false);
  assert.equal(globMatcher(`${"**/a".repeat(50)}b`)("a/".repeat(2500)), false);
});

test("a glob that would mean something else is refused", () => {
  for (const glob of ["!x", "!src/a.js", "{a,{b,c}}", "{a", "{a,b}".repeat(20)]) {
    assert.throws(() => globMatcher(glob), GlobFault, glob);
  }
  const { stderr, status } = run("files", ["--exclude", "!x", "."], { cwd: folderOf({ "a.js": "" }) });
  assert.deepEqual([stderr, status], [
    "modinfo-files: invalid glob: !x: a glob that begins with \"!\" isn't supported; for a name that begins with it, write ./!x\n", 2,
  ]);
});
