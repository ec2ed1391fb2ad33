/** Finds the parsers that are installed. */

import { DEBIAN_MODULES, ownRequire as require } from "../../modinfo-graph/dist/files/program.js";

/**
 * A look-up takes as long as many a file's parse.
 * @type {Map<string, any>}
 */
const loaded = new Map();

/**
 * A module as node finds it from this folder, else Debian's.
 * @param {"acorn" | "typescript"} name
 * @returns {any}
 */
export function loadParser(name) {
  const parser = loaded.get(name) ?? load(name);
  loaded.set(name, parser);
  return parser;
}

/** @param {string} name */
function load(name) {
  for (const path of [name, `${DEBIAN_MODULES}/${name}`]) {
    try {
      return require(path);
    } catch (/** @type {any} */ error) {
      if (error.code !== "MODULE_NOT_FOUND") {
        throw error;
      }
    }
  }
  throw new Error(`${name} is not installed: npm install ${name}, or Debian's node-${name}`);
}
