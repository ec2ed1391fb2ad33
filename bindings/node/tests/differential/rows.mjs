/**
 * Replays the test cases of texts: crates/test_replay/data/source/*.rows.
 *
 *     node --test bindings/node/tests/differential/rows.mjs
 */

import assert from "node:assert/strict";
import { readFileSync, readdirSync } from "node:fs";
import { test } from "node:test";

import { SYNTAX, linesOfTexts } from "./program.mjs";

const FOLDER = new URL("../../../../crates/test_replay/data/source/", import.meta.url);

/**
 * @param {string} file
 * @returns {{ name: string, mediaType: string, text: string, answer: string }[]}
 */
function rowsOf(file) {
  const lines = readFileSync(new URL(file, FOLDER), "utf8").split("\n");
  const rows = lines.join("\n").matchAll(/^row (.*)\ncall source (.*)\ninput (.*)\nanswer (.*)$/gm);
  const found = [...rows].map(([, name, mediaType, input, answer]) => ({ name, mediaType, text: JSON.parse(input), answer }));
  assert.equal(found.length, lines.filter((line) => line.startsWith("row ")).length, "a row lacks a line");
  return found;
}

const files = readdirSync(FOLDER).sort();

test("there are rows", () => {
  assert.notEqual(files.length, 0);
});

for (const file of files) {
  test(file, async () => {
    const rows = rowsOf(file);
    const lines = await linesOfTexts(rows);
    const different = rows
      .map(({ answer, ...row }, at) => ({ ...row, expected: answer, line: lines[at] }))
      .filter(({ expected, line }) => line !== (expected === "Syntax" ? SYNTAX : expected));
    assert.deepEqual(different, []);
  });
}
