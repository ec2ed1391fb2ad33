/**
 * Files of the machine that are changed by seed: the program prints a line for each, whatever is in it, and where the
 * parsers read a changed text, the line of their tree. Of the texts that none of them reads it reads few.
 *
 *     MODINFO=build/unchecked/modinfo SEED=1 COUNT=1500 node --test bindings/node/tests/differential/mutations.mjs
 *
 * The environment variable READ names a file to which the texts are written that the program alone reads, as JSON.
 */

import assert from "node:assert/strict";
import { writeFileSync } from "node:fs";
import { test } from "node:test";

import { PARSERS, TYPESCRIPT_PARSER, parsed } from "../estree_parsers.mjs";
import { changedTexts, skip } from "./changed_texts.mjs";
import { Oracle } from "./oracle.mjs";
import { SYNTAX, linesOfTexts } from "./program.mjs";

const SEED = BigInt(process.env.SEED ?? 1);
const COUNT = Number(process.env.COUNT ?? 300);
/** Of a hundred changed texts, so many are read by TypeScript alone, which reports many errors later. */
const MOST_REFUSED = 3;
/** Of a thousand texts that no parser reads, so many are read. */
const MOST_READ = 4;

/** The parsers of ESTree without those that differ from another one only by their trees. */
const READERS = [
  ...PARSERS.filter(({ name, skip: why }) => !why && !/^acorn without|^Babel with nodes|its own nodes/.test(name)), TYPESCRIPT_PARSER,
];

/** @typedef {import("./program.mjs").Module} Module */

/**
 * Whether a parser reads a text.
 * @param {Module} module
 */
function isRead({ text, mediaType }) {
  return READERS.some((parser) => parsed(parser, text, mediaType));
}

test(`changed files, seed ${SEED}`, { skip }, async () => {
  const texts = changedTexts(SEED);
  const modules = Array.from({ length: COUNT }, () => /** @type {Module} */ (texts.next().value));
  const lines = await linesOfTexts(modules);
  const oracle = new Oracle();
  const different = [];
  let refused = 0;
  for (const [at, module] of modules.entries()) {
    const expected = await oracle.lineOf(module);
    if (lines[at] === expected || expected === SYNTAX) {
      continue;
    }
    if (lines[at] === SYNTAX) {
      refused++;
    } else {
      different.push({ ...module, expected, line: lines[at] });
    }
  }
  oracle.close();
  assert.deepEqual(different, []);
  assert.ok(refused * 100 <= COUNT * MOST_REFUSED, `${refused} texts are refused that a parser reads`);
});

test(`changed files that no parser reads, seed ${SEED}`, { skip }, async (context) => {
  /** @type {Module[]} */
  const modules = [];
  for (const module of changedTexts(SEED)) {
    if (!isRead(module)) {
      modules.push(module);
    }
    if (modules.length >= COUNT) {
      break;
    }
  }
  const lines = await linesOfTexts(modules);
  const read = modules.filter((_, at) => lines[at] !== SYNTAX);
  context.diagnostic(`texts that no parser reads: ${COUNT}, read: ${read.length}`);
  if (process.env.READ) {
    writeFileSync(process.env.READ, JSON.stringify(read));
  }
  assert.ok(read.length * 1000 <= COUNT * MOST_READ, `${read.length} of ${COUNT} texts that no parser reads are read`);
});
