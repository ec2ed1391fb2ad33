/** Runs TypeScript's compiler. */

import { spawnSync } from "node:child_process";
import { existsSync, writeFileSync } from "node:fs";
import { createRequire } from "node:module";
import { dirname, join } from "node:path";

const require = createRequire(import.meta.url);

/**
 * The folder of a parser, as the tests find it.
 * @param {"acorn" | "typescript"} name
 * @returns {string | undefined}
 */
export function parserFolder(name) {
  try {
    return dirname(require.resolve(`${name}/package.json`));
  } catch {
    return [`/usr/share/nodejs/${name}`].find(existsSync);
  }
}

/**
 * What TypeScript reports of some files, in its strictest way.
 * @param {string} folder
 * @param {Record<string, string>} files by their paths in it
 * @param {object} [options] more of its options
 * @returns {string} nothing where all is right
 */
export function compile(folder, files, options = {}) {
  const compilerOptions = {
    noEmit: true, strict: true, exactOptionalPropertyTypes: true, noUncheckedIndexedAccess: true,
    target: "es2022", module: "node16", moduleResolution: "node16", types: [], ...options,
  };
  for (const [path, text] of Object.entries(files)) {
    writeFileSync(join(folder, path), text);
  }
  const configuration = join(folder, "tsconfig.json");
  writeFileSync(configuration, JSON.stringify({ compilerOptions, files: Object.keys(files) }));
  return check(configuration);
}

/**
 * What TypeScript reports of the files of a configuration.
 * @param {string} configuration its path
 * @returns {string} nothing where all is right
 */
export function check(configuration) {
  const folder = parserFolder("typescript");
  if (!folder) {
    throw new Error("there is no TypeScript");
  }
  const words = [join(folder, "bin/tsc"), "--project", configuration];
  const { stdout, stderr } = spawnSync(process.execPath, words);
  return String(stdout) + String(stderr);
}
