/** What is kept of the longest texts of a report. */

import assert from "node:assert/strict";
import { test } from "node:test";

import { excerptOf, withinBounds } from "../modinfo-report/dist/excerpts.js";

/**
 * @typedef {import("../modinfo-report/dist/marks.js").Mark} Mark
 * @typedef {import("../modinfo-report/dist/excerpts.js").Text} Text
 */

/**
 * Returns a text of some lines, each its number, with marks on some of them.
 * @param {number} count
 * @param {number[]} marked
 */
function numbered(count, marked) {
  const lines = Array.from({ length: count }, (_, at) => `${at}\n`);
  /** @type {Mark[]} */
  const marks = marked.map((line) => {
    const from = lines.slice(0, line).join("").length;
    return { from, to: from + String(line).length, row: line, kind: "static" };
  });
  return { source: lines.join(""), marks };
}

/**
 * @param {Text} excerpt
 * @returns {string[]} the texts that its marks cover
 */
function covered({ source = "", marks }) {
  return marks.map(({ from, to }) => source.slice(from, to));
}

test("three lines are kept before a mark and after it", () => {
  const { source, marks } = numbered(100, [10, 15, 50, 99]);
  const excerpt = excerptOf(source, marks);
  const kept = [[7, 18], [47, 53], [96, 99]];
  const expected = kept.flatMap(([first, last]) => Array.from({ length: last + 1 - first }, (_, at) => first + at));
  assert.deepEqual(String(excerpt.source).trim().split("\n").map(Number), expected);
  assert.deepEqual(excerpt.pieces, [[0, 7], [12, 47], [19, 96]]);
  assert.deepEqual(covered(excerpt), ["10", "15", "50", "99"]);
});

test("a mark on several lines is kept whole, and so are those inside of it", () => {
  const { source } = numbered(40, []);
  const from = source.indexOf("\n20\n") + 1;
  /** @type {Mark} */
  const outer = { from, to: source.indexOf("\n30\n") + 3, row: 0, kind: "dynamic" };
  /** @type {Mark} */
  const inner = { from: source.indexOf("\n25\n") + 1, to: source.indexOf("\n25\n") + 3, row: 1, kind: "require" };
  const excerpt = excerptOf(source, [outer, inner]);
  assert.deepEqual(excerpt.pieces, [[0, 17]]);
  assert.equal(covered(excerpt)[0], source.slice(outer.from, outer.to));
  assert.equal(covered(excerpt)[1], "25");
  assert.ok(excerpt.source?.endsWith("\n33\n"));
});

test("a text may have any number of marks", () => {
  const source = "a\n".repeat(200_000);
  /** @type {Mark[]} */
  const marks = Array.from({ length: 200_000 }, (_, row) => ({ from: 2 * row, to: 2 * row + 1, row, kind: "static" }));
  const excerpt = excerptOf(source, marks);
  assert.equal(excerpt.source, source);
  assert.equal(excerpt.marks.length, marks.length);
});

test("of a text without a mark its head is kept", () => {
  assert.deepEqual(excerptOf("0\n1\n2\n3\n4\n5\n", []), {
    source: "0\n1\n2\n3\n", marks: [], pieces: [[0, 0]], lines: 7,
  });
});

test("the longest texts are shortened first, and no more than needed", () => {
  const [long, longer, short] = [numbered(1000, [500]), numbered(2000, [1000]), numbered(10, [5])];
  const sizes = [long, longer, short].map(({ source }) => source.length);
  const all = [long, longer, short];
  assert.deepEqual(withinBounds(all, sizes[0] + sizes[1] + sizes[2]), all);
  const [first, second, third] = withinBounds(all, sizes[0] + sizes[2] + 100);
  assert.deepEqual([first, third], [long, short]);
  assert.deepEqual(covered(second), ["1000"]);
  assert.equal(second.lines, 2001);
});

test("where even the lines around its marks are too long, a text is left out", () => {
  const source = `import "./a";${" ".repeat(200_000)}`;
  const [{ source: left, marks }] = withinBounds([{ source, marks: [{ from: 7, to: 12, row: 0, kind: "static" }] }], 1000);
  assert.deepEqual([left, marks], [undefined, []]);
});
