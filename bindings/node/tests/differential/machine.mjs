/**
 * The parser against other parsers, over the JavaScript and TypeScript that the machine's packages have: each file
 * against acorn or TypeScript, every twentieth against each parser of ESTree that reads it.
 *
 *     MODINFO=build/unchecked/modinfo node --test bindings/node/tests/differential/machine.mjs
 *
 * The environment variable FOLDERS names other folders, with colons between them; EVERY=1 takes each file for the
 * second comparison.
 */

import assert from "node:assert/strict";
import { readFileSync, readdirSync } from "node:fs";
import { join } from "node:path";
import { test } from "node:test";

import { mediaTypeOf } from "../equipment/media_types.mjs";
import { PARSERS } from "../estree_parsers.mjs";
import { KNOWN } from "./known.mjs";
import { Oracle } from "./oracle.mjs";
import { SYNTAX, linesOfFiles } from "./program.mjs";

const FOLDERS = (process.env.FOLDERS ?? "/usr/share/nodejs:/usr/lib/node_modules:/usr/share/javascript").split(":");
/** Files that the program reads in one run. */
const PER_RUN = 500;
const EVERY = Number(process.env.EVERY ?? 20);

/** @typedef {import("./program.mjs").Module} Module */

const decoder = new TextDecoder("utf-8", { fatal: true, ignoreBOM: true });

/** @param {string} folder */
function filesOf(folder) {
  try {
    return readdirSync(folder, { recursive: true, withFileTypes: true })
      .filter((entry) => entry.isFile() && mediaTypeOf(entry.name))
      .map((entry) => join(entry.path, entry.name));
  } catch (/** @type {any} */ error) {
    if (error.code === "ENOENT") {
      return [];
    }
    throw error;
  }
}

/**
 * The module of a file; nothing where the file isn't UTF-8, which no parser is handed.
 * @param {string} path
 */
function moduleOf(path) {
  try {
    return [{ path, text: decoder.decode(readFileSync(path)), mediaType: String(mediaTypeOf(path)) }];
  } catch {
    return [];
  }
}

const paths = FOLDERS.flatMap(filesOf).sort();
const skip = paths.length === 0 && `${FOLDERS.join(", ")} have no JavaScript`;

/**
 * Files whose lines differ. Says how many lines are compared.
 * @param {{ diagnostic: (message: string) => void }} context
 * @param {string[]} compared
 * @param {(oracle: Oracle, module: Module) => Promise<Iterable<[string, string]>>} linesOf the lines of a file by the
 *   names of other parsers
 */
async function differencesOf(context, compared, linesOf) {
  const oracle = new Oracle();
  const different = [];
  /** @type {Record<string, number>} */
  const counts = { "files": 0, "files that aren't UTF-8, passed over": compared.length };
  const count = (/** @type {string} */ what) => {
    counts[what] = (counts[what] ?? 0) + 1;
  };
  for (let at = 0; at < compared.length; at += PER_RUN) {
    const modules = compared.slice(at, at + PER_RUN).flatMap(moduleOf);
    const lines = await linesOfFiles(modules.map(({ path }) => path));
    counts["files that aren't UTF-8, passed over"] -= modules.length;
    for (const [index, module] of modules.entries()) {
      count("files");
      for (const [parser, expected] of await linesOf(oracle, module)) {
        count(expected === SYNTAX ? `refused by ${parser}` : `lines by ${parser}`);
        if (lines[index] !== expected) {
          different.push({ parser, path: module.path, line: lines[index], expected });
        }
      }
    }
  }
  oracle.close();
  for (const [what, number] of Object.entries(counts)) {
    context.diagnostic(`${what}: ${number}`);
  }
  return different;
}

/** @param {{ path: string }} difference */
function isKnown({ path }) {
  return KNOWN.some((known) => known.path.test(path));
}

test("each file of the machine has the line of acorn's or TypeScript's tree", { skip }, async (context) => {
  const different = await differencesOf(context, paths, async (oracle, module) =>
    [["acorn or TypeScript", await oracle.lineOf(module)]]);
  assert.deepEqual(different.filter((each) => !isKnown(each)), []);
  for (const { reason, path, count } of KNOWN) {
    assert.ok(different.filter((each) => path.test(each.path)).length <= count, reason);
  }
});

test("files of the machine have the line of each tree as ESTree describes it", { skip }, async (context) => {
  for (const parser of PARSERS.filter((each) => each.skip)) {
    context.diagnostic(`${parser.name}: passed over, ${parser.skip}`);
  }
  const compared = paths.filter((_, at) => at % EVERY === 0);
  const different = await differencesOf(context, compared, (oracle, module) => oracle.linesOf(module));
  assert.deepEqual(different.filter((each) => !isKnown(each)), []);
});
