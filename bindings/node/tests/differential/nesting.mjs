/**
 * Texts that nest, in each way that the grammar has, up to 4 MB: on a small stack the program prints a line for each, of
 * its syntax or of a text that nests too deep.
 *
 *     MODINFO=build/modinfo node --test bindings/node/tests/differential/nesting.mjs
 *
 * The environment variable STACK is the size of the stack in KiB. The unchecked program needs a larger one.
 */

import assert from "node:assert/strict";
import { spawnSync } from "node:child_process";
import { mkdtempSync, rmSync, writeFileSync } from "node:fs";
import { tmpdir } from "node:os";
import { join } from "node:path";
import { test } from "node:test";

import { MODINFO } from "../run_commands.mjs";
import { FORMS, LEVELS, mostLevels, textOf } from "./nesting_texts.mjs";

const STACK = Number(process.env.STACK ?? 1024);

/**
 * What the program prints for texts, on a stack of STACK KiB.
 * @param {string[]} texts
 * @param {string} extension
 */
function run(texts, extension) {
  const folder = mkdtempSync(join(tmpdir(), "nesting-"));
  try {
    const paths = texts.map((text, at) => {
      const path = join(folder, `${at}.${extension}`);
      writeFileSync(path, text);
      return path;
    });
    const command = `ulimit -s ${STACK}; exec "$0" files "$@"`;
    return spawnSync("sh", ["-c", command, MODINFO, ...paths], { encoding: "utf8", maxBuffer: 1 << 28 });
  } finally {
    rmSync(folder, { recursive: true });
  }
}

for (const [extension, forms] of Object.entries(FORMS)) {
  test(`nesting in ${extension}`, () => {
    const ended = forms.filter((form) => {
      const levels = [...LEVELS, mostLevels(form)];
      const { stdout } = run(levels.map((each) => textOf(form, each)), extension);
      return stdout.split("\n").length !== levels.length + 1;
    });
    assert.deepEqual(ended, []);
  });
}
