/**
 * `modinfo analyze --estree` against the direct reading of the same trees, whose documents `modinfo analyze` reads,
 * and where that files a comment with another token against `modinfo analyze --source`; and documents that no one
 * should send.
 */

import assert from "node:assert/strict";
import { existsSync, readFileSync, readdirSync } from "node:fs";
import { join } from "node:path";
import { test } from "node:test";
import { fileURLToPath } from "node:url";

import { Modinfo } from "../modinfo-graph/dist/index.js";
import { estreeDocument } from "../modinfo/dist/index.js";
import { documentCommand, lineOf } from "./equipment/document_command.mjs";
import { Pool, processesOf } from "../modinfo-graph/dist/runtime/pool.js";
import { mediaTypeOf } from "./equipment/media_types.mjs";
import { readEstree } from "./estree_reading.mjs";
import { PARSERS, parsed } from "./estree_parsers.mjs";
import { DIFFERENCES, TEXTS } from "./estree_texts.mjs";
import { settled } from "./promises.mjs";
import { MODINFO } from "./run_commands.mjs";
import { unchecked } from "./unchecked.mjs";

/**
 * @typedef {[mediaType: string, texts: string[]]} Texts
 * @typedef {import("../modinfo/dist/index.js").Report} Report
 * @typedef {import("./equipment/document_command.mjs").CommandName} CommandName
 */

const notBuilt = !existsSync(MODINFO) && "build/modinfo isn't made";
const OWN = fileURLToPath(new URL("equipment/typescript", import.meta.url));

/** Texts of the tests of ESTree, with those that one reading files otherwise, and sources of these tests. */
const ALL_TEXTS = [
  ...Object.entries(TEXTS),
  ...DIFFERENCES.map(({ mediaType, texts }) => /** @type {Texts} */ ([mediaType, texts])),
  ...readdirSync(OWN).map((name) => /** @type {Texts} */ (
    [mediaTypeOf(name), [readFileSync(join(OWN, name), "utf8")]])),
];

/**
 * What the program answers to some documents: JSON, or the name of a fault.
 * @param {CommandName} command
 * @param {string[]} documents
 * @returns {Promise<string[]>}
 */
async function answers(command, documents) {
  const pool = new Pool(processesOf(documentCommand(MODINFO, command)), 2);
  const found = await settled(documents.map((each) => pool.run(lineOf(each))));
  pool.kill();
  return found.map(({ value, reason }) => (reason ? reason.fault ?? String(reason) : String(value)));
}

/**
 * A tree with all that JSON can hold of it.
 * @param {string} text
 * @param {string} mediaType
 * @param {import("./estree_parsers.mjs").Parsed} parsed
 * @param {(value: string) => unknown} stringOf what is written for a string
 * @returns {string} JSON
 */
function wholeDocument(text, mediaType, { tree, comments }, stringOf) {
  const document = { specifier: "file:///module", mediaType, source: text, program: tree, comments };
  return JSON.stringify(document, (_, value) => {
    const written = typeof value === "string" ? stringOf(value) : value;
    return typeof value === "bigint" ? null : written;
  });
}

/** @param {string} value */
function unitsOf(value) {
  return /\p{Surrogate}/u.test(value) ? Array.from({ length: value.length }, (_, at) => value.charCodeAt(at)) : value;
}

for (const parser of PARSERS) {
  test(`${parser.name}: the answers are those of the direct reading`, { skip: notBuilt || parser.skip }, async () => {
    const read = ALL_TEXTS.flatMap(([mediaType, texts]) => texts.flatMap((text) => {
      const input = parsed(parser, text, mediaType);
      return input ? [{ text, mediaType, input }] : [];
    }));
    const sent = read.map(({ text, mediaType, input: { tree, comments } }) =>
      estreeDocument(tree, text, "file:///module", unchecked(mediaType), { comments }));
    const whole = read.map(({ text, mediaType, input }) => wholeDocument(text, mediaType, input, unitsOf));
    const direct = read.map(({ text, mediaType, input }) =>
      JSON.stringify(readEstree(JSON.parse(wholeDocument(text, mediaType, input, (value) => value)))));
    const found = await answers("analyze --estree", sent);
    const wholly = await answers("analyze --estree", whole);
    const expected = await answers("analyze", direct);
    const bySource = await answers("analyze --source", read.map(({ text, mediaType }) =>
      JSON.stringify({ specifier: "file:///module", source: text, mediaType })));
    assert.ok(found.length > 0);
    const differing = read.map(({ text }, at) => [text, found[at], wholly[at], expected[at], bySource[at]])
      .filter(([, one, other, ...all]) => one !== other || !all.includes(one));
    assert.deepEqual(differing, []);
  });
}

/** `'😀';b // c` */
const DOCUMENT = {
  specifier: "file:///a.js",
  mediaType: "JavaScript",
  source: "'😀';b // c",
  comments: [{ start: 7, end: 11 }],
  program: {
    type: "Program",
    body: [
      { type: "ExpressionStatement", start: 0, end: 5, expression: { type: "Literal", start: 0, end: 4, value: "😀" } },
      { type: "ExpressionStatement", start: 5, end: 6, expression: { type: "Identifier", start: 5, end: 6, name: "b" } },
    ],
  },
};

/**
 * @param {Record<string, unknown>} members of the document
 * @returns {string} JSON
 */
const withMembers = (members) => JSON.stringify({ ...DOCUMENT, ...members });

/**
 * @param {Record<string, unknown>} members of the first statement
 */
function withStatement(members) {
  const [first, ...others] = DOCUMENT.program.body;
  return withMembers({ program: { ...DOCUMENT.program, body: [{ ...first, ...members }, ...others] } });
}

/**
 * @param {...[start: number, end: number]} ranges
 */
const withComments = (...ranges) => withMembers({ comments: ranges.map((range) => ({ range })) });

/**
 * A statement with an expression of some levels.
 * @param {number} levels
 */
function nested(levels) {
  /** @type {object} */
  let node = { type: "Identifier", start: 1, end: 1, name: "a" };
  for (let level = 1; level < levels; level++) {
    node = { type: "UnaryExpression", start: 1, end: 1, argument: node };
  }
  return withStatement({ expression: node });
}

/**
 * Documents with a fault, and members of their reports.
 * @type {[name: string, document: string, report: Partial<Report>][]}
 */
const FAULTS = [
  ["no source", withMembers({ source: undefined }), { fault: "Tree", pointer: "" }],
  ["a source that is no string", withMembers({ source: null }), { fault: "Tree", pointer: "/source" }],
  ["no program", withMembers({ program: undefined }), { fault: "Tree", pointer: "" }],
  ["a program without a body", withMembers({ program: { type: "Program" } }), { fault: "Tree", pointer: "/program" }],
  ["a file without a program", withMembers({ program: { type: "File" } }), { fault: "Tree", pointer: "/program" }],
  ["a statement that is no object", withMembers({ program: { type: "Program", body: [null] } }), { fault: "Tree", pointer: "/program/body/0" }],
  ["another unit", withMembers({ offsets: "bytes" }), { fault: "Tree", pointer: "/offsets" }],
  ["the wrong unit", withMembers({ offsets: "utf8" }), { fault: "RangeOffBoundary", range: [0, 4] }],
  ["a path", withMembers({ specifier: "./a.js" }), { fault: "Specifier", pointer: "/specifier" }],
  ["comments that are no array", withMembers({ comments: { start: 7, end: 11 } }), { fault: "Tree", pointer: "/comments" }],
  ["a comment without a range", withMembers({ comments: [{ type: "Line" }] }), { fault: "Tree", pointer: "/comments/0" }],
  ["a comment that ends in a pair", withComments([0, 2]), { fault: "RangeOffBoundary" }],
  ["a comment after the end", withComments([7, 12]), { fault: "RangeOutside" }],
  ["a comment far after the end", withComments([2 ** 40, 2 ** 41]), { fault: "RangeOutside" }],
  ["a comment backwards", withComments([11, 7]), { fault: "RangeReversed" }],
  ["comments that overlap", withMembers({ source: "//a/**/", comments: [{ range: [0, 7] }, { range: [3, 7] }], program: { type: "Program", body: [] } }),
    { fault: "CommentsOverlap" }],
  ["a comment that doesn't end", withMembers({ source: "/* a", comments: [{ range: [0, 4] }], program: { type: "Program", body: [] } }),
    { fault: "CommentText" }],
  ["a comment that the text doesn't have", withComments([5, 6]), { fault: "CommentText", range: [7, 8] }],
  ["a number as the type of a statement", withStatement({ type: 1 }), { fault: "Tree", pointer: "/program/body/0/type" }],
  ["a node without a start", withStatement({ start: undefined }), { fault: "Tree", pointer: "/program/body/0" }],
  ["a negative start", withStatement({ start: -1 }), { fault: "Tree", pointer: "/program/body/0/start" }],
  ["half a unit", withStatement({ start: 0.5 }), { fault: "Tree", pointer: "/program/body/0/start" }],
  ["half a range", withStatement({ range: [0] }), { fault: "Tree", pointer: "/program/body/0/range" }],
  ["a node that ends in a pair", withStatement({ end: 2 }), { fault: "RangeOffBoundary", range: [0, 3] }],
  ["a node after the end", withStatement({ end: 12 }), { fault: "RangeOutside", range: [0, 14] }],
  ["a node backwards", withStatement({ start: 5, end: 4 }), { fault: "RangeReversed", range: [7, 6] }],
  ["an import without a source", withStatement({ type: "ImportDeclaration" }), { fault: "Tree", pointer: "/program/body/0" }],
  ["an import of a number", withStatement({ type: "ImportDeclaration", source: { start: 0, end: 4, value: 1 } }),
    { fault: "Tree", pointer: "/program/body/0/source/value" }],
  ["a sum of one operand", withStatement({ type: "BinaryExpression", left: { type: "Identifier", range: [0, 4] } }),
    { fault: "Shape", range: [0, 7] }],
  ["a tree of 130 levels", nested(130), { fault: "Json" }],
  ["a lone surrogate", withMembers({}).replace('"name":"b"', '"name":"\\ud800"'), { fault: "Json" }],
];

/**
 * Documents without a fault.
 * @type {[name: string, document: string][]}
 */
const ACCEPTED = [
  ["the document that the others are made of", withMembers({})],
  ["levels that JSON can just have", nested(123)],
  ["comments that are null", withMembers({ comments: null })],
  ["no comments", withMembers({ comments: undefined })],
  ["a comment twice", withComments([7, 11], [7, 11])],
  ["a number as the type of an expression", withStatement({ expression: { type: 1 } })],
];

test("documents with a fault", { skip: notBuilt }, async () => {
  const modinfo = new Modinfo({ program: MODINFO });
  for (const [name, document, expected] of FAULTS) {
    const report = await modinfo.check(document, { command: "analyze --estree" });
    assert.deepEqual({ ...report, ...expected }, report, name);
  }
  await modinfo.close();
  const faults = await answers("analyze --estree", FAULTS.map(([, document]) => document));
  assert.deepEqual(faults, FAULTS.map(([, , { fault }]) => fault));
});

test("a fault of the source has its bytes in the message", { skip: notBuilt }, async () => {
  const modinfo = new Modinfo({ program: MODINFO });
  const message = "RangeReversed at bytes 7 to 6 of the source: expected a start of at most the end";
  const { source, program, comments } = JSON.parse(withStatement({ start: 5, end: 4 }));
  const call = modinfo.analyzeEstree(program, source, "file:///a.js", "JavaScript", { comments, report: true });
  await assert.rejects(call, { message });
  await modinfo.close();
});

test("documents without a fault", { skip: notBuilt }, async () => {
  const modinfo = new Modinfo({ program: MODINFO });
  for (const [name, document] of ACCEPTED) {
    assert.deepEqual(await modinfo.check(document, { command: "analyze --estree" }), { valid: true }, name);
  }
  await modinfo.close();
  const found = await answers("analyze --estree", ACCEPTED.map(([, document]) => document));
  assert.deepEqual(found, Array(ACCEPTED.length).fill('{"script":true}'));
});
