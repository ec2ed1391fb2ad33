/**
 * Asks node itself what names lead to: a process that runs nothing of the modules.
 *
 * @typedef {[importer: string, name: string]} Query with an absolute path without links
 * @typedef {{ import: string, require: string }} Answer of each a path, `builtin`, `url` or `none`
 */

import { spawnSync } from "node:child_process";
import { statSync } from "node:fs";
import { createRequire, isBuiltin } from "node:module";
import { text } from "node:stream/consumers";
import { fileURLToPath, pathToFileURL } from "node:url";

const FLAGS = ["--no-warnings", "--experimental-import-meta-resolve"];

/** The conditions of the node that is asked. */
export const CONDITIONS = [
  "node", "node-addons", .../** @type {any} */ (process).features.require_module ? ["module-sync"] : [],
];

/**
 * @param {Query[]} queries
 * @param {string[]} [conditions] those of `exports` and `imports`, besides node's own
 * @returns {Answer[]}
 */
export function askNode(queries, conditions = []) {
  const flags = conditions.map((condition) => `--conditions=${condition}`);
  const { stdout, stderr, status } = spawnSync(
    process.execPath, [...FLAGS, ...flags, fileURLToPath(import.meta.url), "answer"],
    { input: JSON.stringify(queries), maxBuffer: 1 << 30 },
  );
  if (status !== 0) {
    throw new Error(String(stderr));
  }
  return JSON.parse(String(stdout));
}

/**
 * @param {string} importer
 * @param {string} name
 */
function byImport(importer, name) {
  try {
    // With the flag it takes the importing module, and returns the URL of what isn't there as well.
    const { resolve } = /** @type {any} */ (import.meta);
    const url = new URL(resolve(name, pathToFileURL(importer).href));
    if (url.protocol === "node:") {
      return isBuiltin(url.href) ? "builtin" : "none";
    }
    if (url.protocol !== "file:") {
      return "url";
    }
    return statSync(url, { throwIfNoEntry: false })?.isFile() ? fileURLToPath(url) : "none";
  } catch {
    return "none";
  }
}

/**
 * @param {NodeRequire} require
 * @param {string} name
 */
function byRequire(require, name) {
  try {
    const path = require.resolve(name);
    return isBuiltin(path) ? "builtin" : path;
  } catch {
    return "none";
  }
}

if (process.argv[2] === "answer" && process.argv[1] === fileURLToPath(import.meta.url)) {
  /** @type {Map<string, NodeRequire>} */
  const requires = new Map();
  const answers = JSON.parse(await text(process.stdin)).map((/** @type {Query} */ [importer, name]) => {
    const require = requires.get(importer) ?? createRequire(importer);
    requires.set(importer, require);
    return { import: byImport(importer, name), require: byRequire(require, name) };
  });
  process.stdout.write(JSON.stringify(answers));
}
