/** From the positions of a ModuleInfo to marks in the text, and to pieces of lines on the page. */

import assert from "node:assert/strict";
import { test } from "node:test";

import { faultMarks, marksOf, offsetsIn } from "../modinfo-report/dist/marks.js";
import { withControls } from "../modinfo-report/dist/page/controls.js";
import { lineSegments } from "../modinfo-report/dist/page/segments.js";
import { rowsOf } from "../modinfo-report/dist/rows.js";
import { unchecked } from "./unchecked.mjs";

/** @typedef {import("../modinfo/dist/types/module_info.cjs").PositionRange} Range */

/**
 * A static dependency with this range.
 * @param {string} specifier
 * @param {Range} specifierRange
 */
function imported(specifier, specifierRange, more = {}) {
  return { type: "static", kind: "import", specifier, specifierRange, ...more };
}

/**
 * @param {string} text
 * @param {object} info a `ModuleInfo`
 * @returns {string[]} the texts that the marks of the module cover
 */
function marked(text, info) {
  return marksOf(text, rowsOf(info)).map(({ from, to }) => text.slice(from, to));
}

test("characters are code points, and only a line feed ends a line", () => {
  // The positions are counted by hand: each of 😀, tab, U+000D, U+2028 and U+FEFF is one character.
  /** @type {[string, Range, string][]} */
  const cases = [
    [`import "./a";`, [[0, 7], [0, 12]], `"./a"`],
    [`"😀"; import "./b😀";`, [[0, 12], [0, 18]], `"./b😀"`],
    [`\t\timport\t"./c";`, [[0, 9], [0, 14]], `"./c"`],
    [`a;\r\nimport "./d";\r\n`, [[1, 7], [1, 12]], `"./d"`],
    [`a;\rb;\r\nimport "./e";`, [[1, 7], [1, 12]], `"./e"`],
    [`"\u2028"; import "./f";`, [[0, 12], [0, 17]], `"./f"`],
    [`\ufeffimport "./g";`, [[0, 8], [0, 13]], `"./g"`],
    [`\n\nimport "./ö𝔸ß";`, [[2, 7], [2, 14]], `"./ö𝔸ß"`],
    [`require(\n  "./h" +\n  x)`, [[1, 2], [2, 3]], `"./h" +\n  x`],
  ];
  for (const [text, range, expected] of cases) {
    assert.deepEqual(marked(text, { dependencies: [imported("", range)] }), [expected]);
  }
});

test("an offset is found in any order, at a line's end and at the text's", () => {
  const offsetOf = offsetsIn("a😀b\nc\n");
  /** @type {[number, number][]} */
  const asked = [[0, 3], [0, 1], [1, 1], [0, 2], [2, 0], [0, 0], [1, 0]];
  assert.deepEqual(asked.map((position) => offsetOf(position)), [4, 1, 6, 3, 7, 0, 5]);
  /** @type {[number, number][]} */
  const absent = [[0, 4], [1, 2], [2, 1], [3, 0]];
  for (const none of absent) {
    assert.throws(() => offsetOf(none), RangeError);
  }
});

test("each part of a ModuleInfo is marked, in the order of the source", () => {
  const text = [
    `/// <reference path="./r.d.ts" />`,
    `/** @jsxImportSource preact */`,
    `// @ts-types="./t.d.ts"`,
    `import "./a.js";`,
    `/** {import("./j.js")} */`,
    `import(b ? require("./i.js") : c);`,
    `//# sourceMappingURL=a.map`,
  ].join("\n");
  const info = {
    dependencies: [
      imported("./a.js", [[3, 7], [3, 15]], { typesSpecifier: { text: "./t.d.ts", range: [[2, 13], [2, 23]] } }),
      { type: "dynamic", kind: "require", argument: "./i.js", argumentRange: [[5, 19], [5, 27]] },
      { type: "dynamic", argumentRange: [[5, 7], [5, 32]] },
    ],
    tsReferences: [{ type: "path", text: "./r.d.ts", range: [[0, 20], [0, 30]] }],
    jsxImportSource: { text: "preact", range: [[1, 21], [1, 27]] },
    jsdocImports: [{ text: "./j.js", range: [[4, 12], [4, 20]] }],
    sourceMapUrl: { text: "a.map", range: [[6, 21], [6, 26]] },
  };
  assert.deepEqual(marked(text, info), [
    `"./r.d.ts"`, "preact", `"./t.d.ts"`, `"./a.js"`, `"./j.js"`,
    `b ? require("./i.js") : c`, `"./i.js"`, "a.map",
  ]);
  const rows = rowsOf(unchecked(info));
  assert.deepEqual(rows.map(({ kind, name }) => [kind, name]), [
    ["pragma", "./r.d.ts"], ["pragma", "preact"], ["static", "./a.js"], ["jsdoc", "./j.js"],
    ["dynamic", null], ["require", "./i.js"], ["pragma", "a.map"],
  ]);
  const ofTypes = marksOf(text, rows)[2];
  assert.deepEqual([ofTypes.row, ofTypes.kind], [2, "pragma"]);
});

test("kinds have the names of ModuleInfo", () => {
  const range = [[0, 0], [0, 0]];
  /** @type {(type: string, names: (string | undefined)[]) => string[]} */
  const kinds = (type, names) => names.map((kind) => rowsOf(unchecked({
    dependencies: [{ type, kind, specifierRange: range, argumentRange: range }],
  }))[0].kind);
  assert.deepEqual(kinds("static", ["import", "importDefer", "importSource", "export"]), Array(4).fill("static"));
  assert.deepEqual(kinds("static", ["importType", "exportType", "maybeTsModuleAugmentation"]), Array(3).fill("type"));
  assert.deepEqual(kinds("static", ["importEquals", "exportEquals"]), Array(2).fill("require"));
  assert.deepEqual(kinds("dynamic", [undefined, "importDefer", "require"]), ["dynamic", "dynamic", "require"]);
});

test("the position of a syntax error is the character there, or the end of its line", () => {
  /** @type {(text: string, line: number, column: number) => [number, string][]} */
  const markAt = (text, line, column) => {
    return faultMarks(text, { fault: "Syntax", message: "", line, column }).map(({ from, to }) => [from, text.slice(from, to)]);
  };
  assert.deepEqual(markAt("let a = ;", 1, 9), [[8, ";"]]);
  assert.deepEqual(markAt("a;\r\n😀 b\n", 2, 1), [[4, "😀"]]);
  assert.deepEqual(markAt("a;\u2028b )", 1, 6), [[5, ")"]]);
  assert.deepEqual(markAt("a;\rb;\n😀 )", 2, 3), [[9, ")"]]);
  assert.deepEqual(markAt("a;\n(", 2, 2), [[4, ""]]);
  assert.deepEqual(markAt("(\r\nb", 1, 2), [[1, ""]]);
  assert.deepEqual(faultMarks("a", { fault: "Input", message: "" }), []);
});

/**
 * @param {string} text
 * @param {import("../modinfo-report/dist/page_data.js").MarkDetails[]} marks
 * @returns {[string, number[]][][]} the lines of the text, each as its pieces with the rows that mark them
 */
function lines(text, marks) {
  return [...lineSegments(text, marks)].map((segments) => {
    return segments.map((segment) => [text.slice(segment.from, segment.to), segment.marks.map((mark) => mark[2])]);
  });
}

test("lines are cut where marks begin and end", () => {
  assert.deepEqual(lines("ab\n\ncd", [[1, 2, 0, "static"]]), [
    [["a", []], ["b", [0]], ["\n", []]], [["\n", []]], [["cd", []]],
  ]);
  assert.deepEqual(lines("ab\r\n", [[0, 2, 0, "static"]]), [[["ab", [0]], ["\r\n", []]]]);
  assert.deepEqual(lines("", []), []);
});

test("marks may lie inside one another, over one another, and on several lines", () => {
  assert.deepEqual(lines("abcd", [[0, 4, 0, "dynamic"], [1, 3, 1, "require"]]), [
    [["a", [0]], ["bc", [0, 1]], ["d", [0]]],
  ]);
  assert.deepEqual(lines("abcd", [[0, 3, 0, "pragma"], [2, 4, 1, "jsdoc"]]), [
    [["ab", [0]], ["c", [0, 1]], ["d", [1]]],
  ]);
  assert.deepEqual(lines("a(b\nc)", [[2, 5, 7, "dynamic"]]), [
    [["a(", []], ["b\n", [7]]], [["c", [7]], [")", []]],
  ]);
});

test("a mark without a character has a piece of its own", () => {
  assert.deepEqual(lines("a;\n(", [[4, 4, -1, "fault"]]), [[["a;\n", []]], [["(", []], ["", [-1]]]]);
  assert.deepEqual(lines("(\nb", [[1, 1, -1, "fault"]]), [[["(", []], ["", [-1]], ["\n", []]], [["b", []]]]);
  assert.deepEqual(lines("", [[0, 0, -1, "fault"]]), [[["", [-1]]]]);
  assert.deepEqual(lines("a\n", [[2, 2, -1, "fault"]]), [[["a\n", []]], [["", [-1]]]]);
});

test("characters that aren't seen have a name, and no character is lost", () => {
  const text = "\ufeffa\u2028\u202eb\0\tc\u200d";
  const parts = withControls(text);
  assert.deepEqual(parts.map(({ name }) => name), ["BOM", undefined, "LS", "U+202E", undefined, "NUL", undefined]);
  assert.equal(parts.map((part) => part.text).join(""), text);
});
