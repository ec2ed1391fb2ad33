/** Documents that are broken in one known place: `modinfo check` has to point at it. */

import assert from "node:assert/strict";
import { spawnSync } from "node:child_process";
import { existsSync, readdirSync, readFileSync } from "node:fs";
import { test } from "node:test";

import { MODINFO } from "./run_commands.mjs";

/**
 * The names and indices that lead to a value.
 * @typedef {(string | number)[]} Path
 */

/** @typedef {{ value: any, path: Path }} Found */

/**
 * @typedef {object} Break
 * @property {string} fault that the document then has
 * @property {any} [put] in place of the value
 * @property {string} [without] the member that is taken out of the value
 * @property {Path} [at] where the fault is, if not at the value
 * @property {string} [expected] as the report has it
 */

const isMissing = !existsSync(MODINFO) && "build/modinfo isn't made";
const COUNT = 1000;

const EXAMPLES = new URL("../../../examples/", import.meta.url);
const documents = readdirSync(EXAMPLES)
  .filter((name) => name.endsWith(".json") && !name.endsWith(".out.json"))
  .map((name) => readFileSync(new URL(name, EXAMPLES), "utf8"))
  .filter((text) => "program" in JSON.parse(text));

/**
 * The members that each object of a module document has to have, by the name of the member that it is in.
 * @type {Record<string, string[]>}
 */
const REQUIRED = {
  "": ["specifier", "mediaType", "source", "program"],
  program: ["range", "body"],
  leading: ["pos", "comments"],
  trailing: ["pos", "comments"],
  comments: ["kind", "range", "text"],
  body: ["kind", "range"],
  children: ["kind", "range"],
  args: ["range"],
  src: ["value", "range"],
  external: ["value", "range"],
  arg: ["value", "range"],
  name: ["value", "range"],
};

const NAMES = ["kind", "mediaType", "callee", "op", "phase"];

/**
 * Numbers from 0 to below `count`, the same for each seed (mulberry32).
 * @param {number} seed
 * @returns {(count: number) => number}
 */
function numbers(seed) {
  let state = seed;
  return (count) => {
    state = (state + 0x6d2b79f5) | 0;
    let mixed = Math.imul(state ^ (state >>> 15), 1 | state);
    mixed = (mixed + Math.imul(mixed ^ (mixed >>> 7), 61 | mixed)) ^ mixed;
    return ((mixed ^ (mixed >>> 14)) >>> 0) % count;
  };
}

/** @param {Path} path */
const pointerOf = (path) => path.map((step) => `/${String(step).replaceAll("~", "~0").replaceAll("/", "~1")}`).join("");

/**
 * The name of the member that a value is in, maybe in arrays.
 * @param {Path} path
 */
function roleOf(path) {
  const names = path.filter((step) => typeof step === "string");
  return String(names.at(-1) ?? "");
}

/**
 * @param {any} document
 * @param {Path} path
 */
function valueAt(document, path) {
  return path.reduce((value, step) => value[step], document);
}

/**
 * Each value of a document but those in ranges and in strings of units, with the path to it.
 * @param {any} value
 * @param {Path} path
 * @returns {Generator<Found>}
 */
function* values(value, path = []) {
  yield { value, path };
  const role = roleOf(path);
  if (role === "range" || role === "value" || role === "quasis" || typeof value !== "object" || value === null) {
    return;
  }
  for (const [step, inside] of Object.entries(value)) {
    yield* values(inside, [...path, Array.isArray(value) ? Number(step) : step]);
  }
}

/**
 * How a value can be broken where it is: what to put there, and the fault that this gives.
 * @param {Found} found
 * @param {number} length of the source, in bytes
 * @returns {Generator<Break>}
 */
function* breaks({ value, path }, length) {
  const role = roleOf(path);
  const isItem = typeof path.at(-1) === "number";
  if (role === "range") {
    const [start, end] = value;
    yield { put: [start], fault: "Tree" };
    yield { put: [start, end + 0.5], fault: "Tree" };
    yield { put: [start, length + 1], fault: "RangeOutside" };
    if (start < end) {
      yield { put: [end, start], fault: "RangeReversed" };
    }
  } else if (NAMES.includes(role)) {
    yield { put: "nonsense", fault: "Tree" };
    yield { put: null, fault: "Tree" };
  } else if (typeof value === "boolean" || typeof value === "number") {
    yield { put: "7", fault: "Tree" };
  } else if (role === "specifier") {
    yield { put: "no URL", fault: "Specifier" };
    yield { put: 7, fault: "Tree" };
  } else if (role === "text") {
    yield { put: `${value}!`, fault: "CommentText", at: path.slice(0, -1) };
    yield { put: [], fault: "Tree" };
  } else if (role !== "key" && role !== "source") {
    yield { put: 7, fault: "Tree" };
    const required = isItem || !Array.isArray(value) ? REQUIRED[role] : undefined;
    for (const name of required ?? []) {
      yield { without: name, fault: "Tree", expected: `a member \`${name}\`` };
    }
  }
}

/**
 * One document that is broken by seed, with the fault and the pointer to it.
 * @param {number} seed
 */
function brokenBy(seed) {
  const number = numbers(seed);
  const document = JSON.parse(documents[number(documents.length)]);
  const found = [...values(document)].flatMap((each) =>
    [...breaks(each, Buffer.byteLength(document.source))].map((how) => ({ ...each, ...how })),
  );
  const { path, put, without, fault, at, expected } = found[number(found.length)];
  if (without !== undefined) {
    delete valueAt(document, path)[without];
  } else if (path.length > 0) {
    valueAt(document, path.slice(0, -1))[path[path.length - 1]] = put;
  }
  const broken = path.length === 0 && without === undefined ? put : document;
  return { line: JSON.stringify(broken), fault, pointer: pointerOf(at ?? path), expected };
}

test(`${COUNT} documents, each broken in one place: the report points there`, { skip: isMissing }, () => {
  const broken = Array.from({ length: COUNT }, (_, seed) => brokenBy(seed));
  const input = broken.map(({ line }) => `${line}\n`).join("");
  const { stdout, status } = spawnSync(MODINFO, ["check", "--lines"], { input, encoding: "utf8", maxBuffer: 2 ** 26 });
  assert.equal(status, 1);
  const reports = stdout.trimEnd().split("\n").map((line) => JSON.parse(line));
  assert.equal(reports.length, COUNT);
  for (const [seed, { fault, pointer, expected }] of broken.entries()) {
    const report = reports[seed];
    assert.deepEqual([report.fault, report.pointer], [fault, pointer], `seed ${seed}`);
    assert.equal(report.expected, expected ?? report.expected, `seed ${seed}`);
  }
});
