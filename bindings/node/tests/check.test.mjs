/** Reports on documents. */

import assert from "node:assert/strict";
import { existsSync, readdirSync, readFileSync } from "node:fs";
import { test } from "node:test";

import { Modinfo } from "../modinfo-graph/dist/index.js";
import { check } from "../modinfo/dist/index.js";
import { MODULE } from "./run_commands.mjs";
import { fault, readSchema } from "./schema.mjs";
import { unchecked } from "./unchecked.mjs";

/**
 * @typedef {"analyze" | "analyze --source" | "convert" | "reach"} Command
 * @typedef {import("../modinfo/dist/index.js").FaultReport} FaultReport
 */

const EXAMPLES = new URL("../../../examples/", import.meta.url);
const skip = !existsSync(MODULE) && "build/modinfo.wasm isn't made";

/** @param {string} name */
const read = (name) => JSON.parse(readFileSync(new URL(name, EXAMPLES), "utf8"));
const SIDE_EFFECT_IMPORT = read("side-effect-import.json");
const UNREAD = "nothing reads a member of this name here";

/**
 * The document whose import has these members too.
 * @param {Record<string, unknown>} members
 */
function withItem(members) {
  const [item] = SIDE_EFFECT_IMPORT.program.body;
  return { ...SIDE_EFFECT_IMPORT, program: { range: [0, 16], body: [{ ...item, ...members }] } };
}

/**
 * A report that has to be one of a fault.
 * @param {import("../modinfo/dist/index.js").Report} report
 */
function asFault(report) {
  assert.ok(!report.valid);
  return report;
}

/**
 * A document of nothing but a line comment, with these filed, each by its range and text.
 * @param {[range: [number, number], text: string][]} comments
 */
function withComments(...comments) {
  const filed = comments.map(([range, text]) => ({ kind: "line", range, text }));
  return {
    ...SIDE_EFFECT_IMPORT, source: "//b",
    program: { range: [3, 3], body: [] }, leading: [{ pos: 3, comments: filed }],
  };
}

/**
 * @param {string} source
 * @param {[number, number]} range
 */
const withProgram = (source, range) => ({ ...SIDE_EFFECT_IMPORT, source, program: { range, body: [] } });
const OVERFLOWING = `{"dependencies":[{"leadingComments":[
  {"range":[[0,18446744073709551615],[0,0]],"text":"@deno-types=a"}]}]}`;

/**
 * A command, a document, and the report on it, but for what was expected.
 * @type {[command: Command, document: any, report: Partial<FaultReport>][]}
 */
const FAULTS = [
  ["analyze", Buffer.from('{"gr\xf6\xdfe"', "latin1"), { fault: "Input", at: { line: 0, column: 4, offset: 4 } }],
  ["analyze", '{\n "größe": 1,\n "ä": ]\n}', { fault: "Json", at: { line: 2, column: 6, offset: 24 } }],
  ["analyze", "", { fault: "Json", at: { line: 0, column: 0, offset: 0 } }],
  ["analyze", {}, { fault: "Tree", pointer: "" }],
  ["analyze", null, { fault: "Tree", pointer: "" }],
  ["analyze", { ...SIDE_EFFECT_IMPORT, mediaType: "js" }, { fault: "Tree", pointer: "/mediaType" }],
  ["analyze", { ...SIDE_EFFECT_IMPORT, specifier: "./b.ts" }, { fault: "Specifier", pointer: "/specifier" }],
  ["analyze", withProgram("a", [1, 0]), { fault: "RangeReversed", pointer: "/program/range", range: [1, 0] }],
  ["analyze", withItem({ range: [0, 99] }), { fault: "RangeOutside", pointer: "/program/body/0/range", range: [0, 99] }],
  ["analyze", withProgram("é", [1, 2]), { fault: "RangeOffBoundary", pointer: "/program/range", range: [1, 2] }],
  ["analyze", withComments([[0, 3], "a"]), { fault: "CommentText", pointer: "/leading/0/comments/0", range: [0, 3] }],
  [
    "analyze", withComments([[0, 3], "b"], [[0, 2], ""]),
    { fault: "CommentsOverlap", pointer: "/leading/0/comments/1", other: "/leading/0/comments/0", range: [0, 2] },
  ],
  ["analyze", withItem({ hasWith: true }), { fault: "Shape", pointer: "/program/body/0", range: [0, 16] }],
  [
    "analyze --source", { specifier: "file:///a.ts", source: "let a;\nlet é = ;" },
    { fault: "Syntax", pointer: "/source", at: { line: 1, column: 8, offset: 16 } },
  ],
  ["convert", { "a/b": [0, 0.5] }, { fault: "Float", pointer: "/a~1b/1" }],
  ["convert", OVERFLOWING, { fault: "ColumnOverflow", pointer: "/dependencies/0/leadingComments/0/range/0/1" }],
  ["reach", {}, { fault: "Shape", pointer: "" }],
  ["reach", { root: "a", modules: { "~": { script: 1 } } }, { fault: "Shape", pointer: "/modules/~0/script" }],
];

test("a document with a fault", { skip }, async () => {
  const modinfo = new Modinfo();
  const reports = await Promise.all(FAULTS.map(([command, document]) => modinfo.check(document, { command })));
  for (const [at, report] of reports.entries()) {
    const [command, document, wanted] = FAULTS[at];
    const { expected, ...others } = asFault(report);
    assert.deepEqual(others, wanted);
    assert.ok(expected.length > 0);
    assert.equal(fault(report, readSchema("report")), undefined);
    const call = command === "analyze --source"
      ? modinfo.moduleInfo(document.source, document.specifier) : modinfo[command](document);
    await assert.rejects(call, { name: "ModinfoFault", fault: wanted.fault });
  }
  // But the one for texts that show a defect of modinfo.
  const { enum: names } = readSchema("report").$defs.documentFault;
  assert.deepEqual([...new Set(["Defect", ...reports.map((report) => report.fault)])].sort(), [...names].sort());
  const { expected } = asFault(await modinfo.check({ ...SIDE_EFFECT_IMPORT, source: "" }));
  assert.equal(expected, "an end of at most 0, the source's length");
  await modinfo.close();
});

test("warnings", { skip }, async () => {
  const modinfo = new Modinfo();
  assert.deepEqual(await modinfo.check(SIDE_EFFECT_IMPORT), { valid: true });
  /** @param {string} name */
  const warning = (name) => ({ pointer: `/program/body/0/${name}`, says: UNREAD });
  assert.deepEqual(await modinfo.check(withItem({ child: [] })), { valid: true, warnings: [warning("child")] });
  const names = Array.from({ length: 103 }, (_, number) => `child${number}`);
  const report = await modinfo.check(withItem(Object.fromEntries(names.map((name) => [name, []]))));
  assert.deepEqual(report, { valid: true, warnings: names.slice(0, 100).map(warning), more: 3 });
  assert.equal(fault(report, readSchema("report")), undefined);
  await modinfo.close();
});

test("a document may be an object, its JSON or bytes", { skip }, async () => {
  const modinfo = new Modinfo();
  for (const document of [SIDE_EFFECT_IMPORT, withItem({ child: [] }), withItem({ range: [0, 99] }), {}]) {
    const report = await modinfo.check(document);
    for (const json of [JSON.stringify(document), JSON.stringify(document, undefined, 1)]) {
      assert.deepEqual(await modinfo.check(json), report);
      assert.deepEqual(await modinfo.check(new TextEncoder().encode(json)), report);
    }
  }
  await modinfo.close();
});

test("each example is valid", { skip }, async () => {
  const modinfo = new Modinfo();
  /** @type {[command: Command, document: string, answer: string][]} */
  const endings = [
    ["analyze", ".json", ".out.json"], ["convert", ".convert.json", ".converted.json"],
    ["reach", ".reach.json", ".reached.json"],
  ];
  for (const [command, document, answer] of endings) {
    for (const name of readdirSync(EXAMPLES).filter((each) => each.endsWith(answer))) {
      const report = await modinfo.check(read(name.replace(answer, document)), { command });
      assert.deepEqual(report, { valid: true }, name);
    }
  }
  await modinfo.close();
});

test("the reports of the rows keep their schema", () => {
  const rows = new URL("../../../crates/test_replay/data/", import.meta.url);
  for (const name of readdirSync(rows).filter((each) => each.endsWith(".rows"))) {
    for (const row of readFileSync(new URL(name, rows), "utf8").split(/^(?=row )/m)) {
      const word = /^call serve check\b/m.test(row) ? "output" : "report";
      const reports = row.matchAll(new RegExp(`^${word} (.*)$`, "mg"));
      for (const [, report] of reports) {
        assert.equal(fault(JSON.parse(report), readSchema("report")), undefined, report);
      }
    }
  }
});

test("the schema refuses what is no report", () => {
  const warning = { pointer: "/a", says: "strange" };
  const at = { line: 0, column: 0, offset: 0 };
  for (const [report, isRefused] of [
    [{ valid: true }, false], [{ valid: true, warnings: [warning], more: 1 }, false],
    [{ fault: "Json", at, expected: "JSON" }, false], [{ fault: "Tree", pointer: "", expected: "a tree" }, false],
    [{}, true], [{ valid: false }, true], [{ valid: true, warnings: [] }, true],
    [{ valid: true, warnings: Array(101).fill(warning) }, true], [{ valid: true, more: 0 }, true],
    [{ valid: true, fault: "Tree", expected: "a tree" }, true], [{ fault: "Tree" }, true],
    [{ fault: "OutOfMemory" }, true], [{ fault: "OutOfMemory", expected: "memory" }, true],
    [{ fault: "Json", at: { ...at, line: -1 }, expected: "JSON" }, true],
    [{ fault: "Shape", pointer: [], expected: "a child" }, true],
    [{ fault: "Shape", range: [0], expected: "a child" }, true],
  ]) {
    assert.equal(fault(report, readSchema("report")) !== undefined, isRefused, JSON.stringify(report));
  }
});

test("a place is that in the document as it was handed over", async () => {
  const modinfo = new Modinfo();
  /** @type {[document: string, line: number, column: number][]} */
  const documents = [
    ["{", 0, 1], ["", 0, 0], ["\n", 1, 0], ["\n\n", 2, 0], ['{"😀é": \n"日本', 1, 3], ["{\r\n\t", 1, 1],
  ];
  for (const [document, line, column] of documents) {
    for (const form of [document, new TextEncoder().encode(document)]) {
      const { at } = asFault(await modinfo.check(form));
      assert.deepEqual(at, { line, column, offset: Buffer.byteLength(document) });
    }
  }
  await modinfo.close();
});

test("a document with a lone surrogate isn't UTF-8", { skip }, async () => {
  for (const [text, before] of [["\udc00", ""], ['"a\ud800"', '"a'], ['"\ud83d\ude00\ude00"', '"\ud83d\ude00']]) {
    const { fault, at } = asFault(await check(text));
    assert.deepEqual([fault, at?.offset], ["Input", Buffer.byteLength(before)]);
  }
});

test("what modinfo reports of a lone surrogate", { skip }, async () => {
  const modinfo = new Modinfo();
  const { expected, ...report } = asFault(await modinfo.check('{\n"größe":"\ud800"}'));
  assert.deepEqual(report, { fault: "Input", at: { line: 1, column: 9, offset: 13 } });
  assert.equal((await modinfo.check({ größe: "\ud800" })).fault, "Json");
  await modinfo.close();
});

test("bytes may be changed once they are handed over", { skip }, async () => {
  const bytes = new TextEncoder().encode("1\nb");
  const report = check(bytes);
  bytes.fill(0x20);
  assert.deepEqual(asFault(await report).at, { line: 1, column: 0, offset: 2 });
});

test("many checks at once, of which each has its report", { skip }, async () => {
  const modinfo = new Modinfo();
  const reports = await Promise.all(Array.from({ length: 2000 }, (_, number) => modinfo.check(`${" ".repeat(number)}]`)));
  assert.deepEqual(reports.map((each) => asFault(each).at?.offset), [...reports.keys()]);
  const last = modinfo.check("]");
  await modinfo.close();
  assert.equal((await last).fault, "Json");
  await assert.rejects(modinfo.check("{}"), { name: "ProgramEnd", message: "modinfo is closed" });
});

test("what is no document or no command", async () => {
  const modinfo = new Modinfo();
  for (const command of ["", "check", "Analyze", "toString", null, 1]) {
    const message = `command must be one of analyze, analyze --estree, analyze --source, convert, reach, not ${command}`;
    await assert.rejects(modinfo.check("{}", unchecked({ command })), { name: "TypeError", message });
  }
  await assert.rejects(modinfo.check(unchecked(undefined)), { name: "TypeError", message: /^a document must be an object or its JSON, not / });
  await modinfo.close();
});
