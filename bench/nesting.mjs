/**
 * Measures how much stack a text takes that nests, in each way that the grammar has: the deepest text that is read, one
 * that nests a level deeper, and one of 4 MB.
 *
 *     node bench/nesting.mjs build/modinfo
 *
 * Prints a row for each form: its extension, the form inside itself once, the levels that are read, and the KiB of stack
 * that all three texts take, counted in steps of 8. At the end, the most.
 */

import { spawnSync } from "node:child_process";
import { mkdtempSync, rmSync, writeFileSync } from "node:fs";
import { tmpdir } from "node:os";
import { join } from "node:path";

import { FORMS, mostLevels, textOf } from "../bindings/node/tests/differential/nesting_texts.mjs";

const [program] = process.argv.slice(2);
if (!program) {
  console.error("usage: node bench/nesting.mjs PROGRAM");
  process.exit(2);
}
const STEP = 8;
const MOST_STACK = 4096;
const MOST_LEVELS = 4096;
const COARSE = 64;
const folder = mkdtempSync(join(tmpdir(), "nesting-"));

/** The lines that the program prints for texts, on a stack of so many KiB. */
function linesOf(texts, extension, stack) {
  const paths = texts.map((text, at) => {
    const path = join(folder, `${at}.${extension}`);
    writeFileSync(path, text);
    return path;
  });
  const words = ["-i", "sh", "-c", `ulimit -s ${stack}; exec "$0" files "$@"`, program, ...paths];
  const { stdout } = spawnSync("env", words, { encoding: "utf8", maxBuffer: 1 << 30 });
  return stdout.split("\n").slice(0, -1);
}

/** The most levels that are read, of levels in ascending order. */
function deepest(form, extension, levels) {
  const lines = linesOf(levels.map((each) => textOf(form, each)), extension, MOST_STACK);
  const refused = lines.findIndex((line) => line.includes('"fault"'));
  return levels[(refused === -1 ? lines.length : refused) - 1] ?? 0;
}

const range = (from, to, step) => Array.from({ length: Math.ceil((to - from) / step) }, (_, at) => from + at * step);
let most = 0;
for (const [extension, forms] of Object.entries(FORMS)) {
  for (const form of forms) {
    const about = deepest(form, extension, range(COARSE, MOST_LEVELS + 1, COARSE));
    const read = deepest(form, extension, range(about || 1, about + COARSE, 1));
    const texts = [read, read + 1, mostLevels(form)].map((each) => textOf(form, each));
    const count = linesOf(texts, extension, MOST_STACK).length;
    let [least, enough] = [0, MOST_STACK / STEP];
    while (enough - least > 1) {
      const middle = (least + enough) >> 1;
      if (linesOf(texts, extension, middle * STEP).length === texts.length) enough = middle;
      else least = middle;
    }
    most = Math.max(most, enough * STEP);
    const kib = count === texts.length ? enough * STEP : `more than ${MOST_STACK}`;
    console.log(`| ${extension} | \`${textOf(form, 2).replaceAll("|", "\\|").replaceAll("`", "'")}\` | ${read} | ${kib} |`);
  }
}
console.log(`most: ${most} KiB`);
rmSync(folder, { recursive: true });
