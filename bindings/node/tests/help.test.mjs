/** The help of each command. */

import assert from "node:assert/strict";
import { test } from "node:test";

import { folderOf, run } from "./run_commands.mjs";

const MOST_LINES = 40;

for (const name of ["files", "report"]) {
  const { stdout: help } = run(name, ["--help"]);

  test(`the help of modinfo-${name} fits one screen`, () => {
    const lines = help.split("\n").slice(0, -1);
    assert.ok(lines.length <= MOST_LINES, `${lines.length} lines`);
    assert.deepEqual(lines.filter((line) => line.length > 101), []);
  });

  test(`the help of modinfo-${name} has the questions before other options`, { skip: name !== "files" }, () => {
    const first = [...help.matchAll(/^ {2}--([a-z]+)/gm)].slice(0, 8).map(([, option]) => option);
    assert.deepEqual(first, ["cycles", "missing", "unreached", "packages", "forbid", "why", "dependents", "dot"]);
  });

  test(`the example in the help of modinfo-${name} runs`, () => {
    const [, words] = / Example:\n {2}modinfo-\w+ ([^|\n]*)/.exec(help) ?? assert.fail("there is no example");
    const cwd = folderOf({ "src/main.ts": `import "./b.js";`, "src/b.js": "", "src/lonely.js": "" });
    const { stdout, stderr, status } = run(name, words.trim().split(" "), { cwd });
    assert.deepEqual([stderr, status], ["", name === "files" ? 1 : 0]);
    assert.equal(stdout.includes("lonely.js"), name !== "report");
  });
}
