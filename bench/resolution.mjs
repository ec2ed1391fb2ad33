#!/usr/bin/env node
/**
 * Compares what names lead to with what node and esbuild find, in real packages, and how fast.
 *
 * usage: node bench/resolution.mjs [--files N] [--entries N] [--folder PATH] [--list]
 * example: node bench/resolution.mjs --files 500 --entries 50
 *
 *   --files N      how many files of JavaScript, evenly spread over all of the folder; else 5000
 *   --entries N    how many packages esbuild bundles, evenly spread; else all
 *   --folder PATH  a folder of packages; else /usr/share/nodejs, where Debian's packages are
 *   --list         prints each name that bundlers' rules find, and node doesn't
 *
 * Each name that `modinfo-files` finds in a file is resolved, and by a node that runs nothing of the
 * packages. Then the cycles of some packages are compared with those that a textbook's search finds
 * over node's resolution of what acorn finds (resolution_cycles.mjs), and the names in what esbuild
 * bundles with where esbuild has them lead (resolution_by_esbuild.mjs). Status 1 where anything
 * differs.
 */

import { spawnSync } from "node:child_process";
import { realpathSync } from "node:fs";
import { readdir } from "node:fs/promises";
import { join } from "node:path";
import { fileURLToPath } from "node:url";
import { parseArgs } from "node:util";

import { printHelp } from "./help.mjs";

printHelp(import.meta.url);

// These need the built packages, which the help doesn't.
const { textOfArgument } = await import("../bindings/node/modinfo-graph/dist/graph/references.js");
const { Resolver } = await import("../bindings/node/modinfo-graph/dist/graph/resolver.js");
const { askNode } = await import("../bindings/node/tests/by_node.mjs");
const { compareEntries } = await import("./resolution_by_esbuild.mjs");
const { compareCycles } = await import("./resolution_cycles.mjs");

const FILES = fileURLToPath(new URL("../bindings/node/modinfo-graph/dist/cli/files.js", import.meta.url));
const PACKAGES = ["@babel", "undici", "core-js", "eslint"];

const { values } = parseArgs({
  options: {
    files: { type: "string", default: "5000" },
    entries: { type: "string", default: "Infinity" },
    folder: { type: "string", default: "/usr/share/nodejs" },
    list: { type: "boolean" },
  },
});
const folder = realpathSync(values.folder);
const isSame = compare(namesOf(spread(await javaScriptFiles(folder), Number(values.files))));
const haveSame = PACKAGES.map((name) => compareCycles(join(folder, name), FILES));
const bundlesSame = compareEntries(folder, Number(values.entries));
process.exitCode = isSame && bundlesSame && haveSame.every(Boolean) ? 0 : 1;

/**
 * @param {string} root
 * @returns {Promise<string[]>}
 */
async function javaScriptFiles(root) {
  const entries = await readdir(root, { recursive: true, withFileTypes: true });
  const files = entries.filter((entry) => entry.isFile() && /\.[cm]?js$/.test(entry.name));
  return files.map((entry) => join(entry.path, entry.name)).sort();
}

/**
 * @param {string[]} all
 * @param {number} count
 */
function spread(all, count) {
  const step = Math.max(1, all.length / count);
  return Array.from({ length: Math.min(count, all.length) }, (_, at) => all[Math.floor(at * step)]);
}

/**
 * The names in files that are known.
 * @param {string[]} files
 */
function namesOf(files) {
  const { stdout } = spawnSync(process.execPath, [FILES, "--jobs", "2", "-0", "-"], {
    input: files.join("\0"), maxBuffer: 1 << 30, stdio: ["pipe", "pipe", "inherit"],
  });
  const lines = stdout.toString().split("\n").slice(0, -1).map((line) => JSON.parse(line));
  return lines.flatMap(({ specifier: url, info }) => {
    return (info?.dependencies ?? []).flatMap(({ type, kind: word, specifier, argument }) => {
      const name = specifier ?? textOfArgument(argument);
      const kind = word === "require" ? word : type === "dynamic" ? "dynamic" : "import";
      return name === undefined ? [] : [{ file: fileURLToPath(url), name, kind, isScript: info.script }];
    });
  });
}

/**
 * @param {{ file: string, name: string, kind: any, isScript?: boolean }[]} names
 * @returns {boolean} whether all that node finds is the same
 */
function compare(names) {
  const resolver = new Resolver({ root: "/" });
  const begin = process.hrtime.bigint();
  const own = names.map(({ file, name, ...options }) => resolver.resolve(name, file, options));
  const seconds = Number(process.hrtime.bigint() - begin) / 1e9;
  const byNode = askNode(names.map(({ file, name }) => [file, name]));
  const counts = { same: 0, "found, where node finds nothing": 0, different: 0 };
  let found = 0;
  names.forEach(({ file, name, kind }, at) => {
    const expected = byNode[at][kind === "require" ? kind : "import"];
    const shown = shownOf(own[at]);
    const isMore = expected === "none" && own[at].by !== "node";
    found += Number(expected !== "none");
    const word = shown === expected ? "same" : isMore ? "found, where node finds nothing" : "different";
    counts[word]++;
    if (word === "different" || (values.list && word !== "same")) {
      console.log(`${file}: ${kind} ${name}: ${shown}, node: ${expected}`);
    }
  });
  const words = Object.entries(counts).map(([word, count]) => `${count} ${word}`).join(", ");
  console.log(`${names.length} names, ${Math.round(names.length / seconds)} a second, of which node finds ${found}: ${words}`);
  return counts.different === 0;
}

/** @param {any} resolved */
function shownOf({ class: word, file }) {
  switch (word) {
    case "builtin":
      return word;
    case "data":
    case "npm":
    case "jsr":
    case "url":
      return "url";
    default:
      return file === undefined ? "none" : fileURLToPath(file);
  }
}
