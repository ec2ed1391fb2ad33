/** Runs the commands of the package as their users do. */

import { spawnSync } from "node:child_process";
import { mkdirSync, mkdtempSync, rmSync, writeFileSync } from "node:fs";
import { tmpdir } from "node:os";
import { dirname, join } from "node:path";
import { after } from "node:test";
import { fileURLToPath, pathToFileURL } from "node:url";

/**
 * @typedef {object} RunOptions
 * @property {string} [cwd]
 * @property {string | Uint8Array} [input]
 * @property {string} [modinfo] the path of the program
 */

/** @typedef {{ stdout: string, stderr: string, status: number | null }} Ended */

/** The program, which the tests need. */
export const MODINFO = process.env.MODINFO ?? fileURLToPath(new URL("../../../build/modinfo", import.meta.url));

/** The WebAssembly module, which the tests need too. */
export const MODULE = process.env.MODINFO_WASM ?? fileURLToPath(new URL("../../../build/modinfo.wasm", import.meta.url));

/**
 * A folder that is gone after the tests.
 * @param {Record<string, string | Uint8Array>} [files] by their paths in it
 * @returns {string} its path
 */
export function folderOf(files = {}) {
  const folder = mkdtempSync(join(tmpdir(), "modinfo-node-"));
  after(() => rmSync(folder, { recursive: true }));
  for (const [name, content] of Object.entries(files)) {
    mkdirSync(dirname(join(folder, name)), { recursive: true });
    writeFileSync(join(folder, name), content);
  }
  return folder;
}

/**
 * @param {string} folder
 * @param {string} path in it
 */
export function urlOf(folder, path) {
  return pathToFileURL(join(folder, path)).href;
}

/**
 * @param {string} name of the program: `files` or `report`
 * @returns {string} its path
 */
export function programOf(name) {
  const path = name === "report" ? "modinfo-report/dist/cli.js" : "modinfo-graph/dist/cli/files.js";
  return fileURLToPath(new URL(`../${path}`, import.meta.url));
}

/**
 * @param {string} name of the program: `files` or `report`
 * @param {string[]} words
 * @param {RunOptions} options
 * @returns {Ended}
 */
export function run(name, words, { cwd, input = "", modinfo = MODINFO } = {}) {
  const command = [programOf(name), ...words];
  const { stdout, stderr, status } = spawnSync(process.execPath, command, {
    cwd,
    input,
    env: { ...process.env, MODINFO: modinfo },
    maxBuffer: 1e9,
  });
  return { stdout: String(stdout), stderr: String(stderr), status };
}

/**
 * Runs a line of the shell, in which `$node` and `$cli` are there.
 * @param {string} line
 * @param {string} cwd
 * @returns {Ended}
 */
export function shell(line, cwd) {
  const env = { ...process.env, MODINFO, node: process.execPath, cli: programOf("files") };
  const { stdout, stderr, status } = spawnSync("bash", ["-c", line], { cwd, env });
  return { stdout: String(stdout), stderr: String(stderr), status };
}

/**
 * The values of some lines of JSON.
 * @param {string} text
 * @returns {any[]}
 */
export function linesOf(text) {
  assertEnded(text);
  return text.split("\n").slice(0, -1).map((line) => JSON.parse(line));
}

/** @param {string} text */
function assertEnded(text) {
  if (text !== "" && !text.endsWith("\n")) {
    throw new Error(`the last line is cut: ${text.slice(-100)}`);
  }
}
