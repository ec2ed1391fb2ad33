/** Writes files that are there as a whole or not at all. */

import { randomBytes } from "node:crypto";
import { constants, statSync } from "node:fs";
import { chmod, open, rename, rm, writeFile } from "node:fs/promises";
import { basename, dirname, join, resolve as absolute } from "node:path";

import { readBeginning } from "modinfo-graph/internal/files/regular_files.js";
import { realPath } from "modinfo-graph/internal/files/urls.js";
import { printable, systemMessage } from "modinfo-graph/internal/runtime/faults.js";

const BEGINNING = 4096;

/**
 * Writes a file under another name in its folder, and renames it. A link stays, and the file that it leads to
 * is replaced. What is there and is no regular file, as a device or a FIFO, is written to; a FIFO that nobody
 * reads is an error.
 * @returns rejected with an error for people
 */
export async function replaceFile(path: string, text: string): Promise<void> {
  await replace(path, text).catch((error) => {
    throw new Error(`${printable(path)}: ${systemMessage(error)}`);
  });
}

async function replace(path: string, text: string) {
  const status = statSync(path, { throwIfNoEntry: false });
  if (status && !status.isFile()) {
    // Opened so, a FIFO isn't waited for: without a reader there is an error.
    const probe = status.isFIFO() ? await open(path, constants.O_WRONLY | constants.O_NONBLOCK) : undefined;
    await writeFile(path, text).finally(() => probe?.close());
    return;
  }
  const place = placeOf(path);
  const beside = join(dirname(place), `.${basename(place)}.${randomBytes(6).toString("hex")}`);
  try {
    await writeFile(beside, text, { flag: "wx", ...(status && { mode: status.mode & 0o777 }) });
    await (status && chmod(beside, status.mode & 0o7777));
    await rename(beside, place);
  } catch (error) {
    await rm(beside, { force: true });
    throw error;
  }
}

/**
 * Whether an output may replace what is at a path: nothing, an empty file, what is no regular file, or an
 * earlier output.
 * @param isOutput whether a file that begins so is an earlier output
 */
export function isReplaceable(path: string, isOutput: (text: string) => boolean): boolean {
  const status = statSync(path, { throwIfNoEntry: false });
  return !status?.isFile() || status.size === 0 || isOutput(readBeginning(path, BEGINNING));
}

/** The path without links, of which the last folders need not exist. */
export function placeOf(path: string): string {
  const folder = dirname(absolute(path));
  return realPath(path) ?? (folder === path ? path : join(placeOf(folder), basename(path)));
}
