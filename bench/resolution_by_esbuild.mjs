/** Compares what names lead to with what esbuild bundles, by its metafile. */

import { spawnSync } from "node:child_process";
import { mkdtempSync, readFileSync, readdirSync, realpathSync, rmSync } from "node:fs";
import { tmpdir } from "node:os";
import { join, resolve as absolute } from "node:path";
import { pathToFileURL } from "node:url";

import { Resolver } from "../bindings/node/modinfo-graph/dist/graph/resolver.js";

/** The kinds of names by esbuild's. */
const KINDS = {
  "require-call": "require", "require-resolve": "require", "dynamic-import": "dynamic", "import-statement": "import",
};

/** What a file imports or requires, by a search that finds more than that. */
const NAME = /\b(?:require(?:\.resolve)?\s*\(\s*|import\s*\(?\s*|from\s*)(["'])([^"'\n\\]*)\1/g;

/** A module of esbuild's own, and one whose name has a query. */
const NO_FILE = /^[\w-]+:|\?/;

/**
 * Bundles packages, each by its main module, and resolves the names in all modules that are bundled.
 * @param {string} folder of packages
 * @param {number} most how many packages
 * @returns {boolean} whether each edge of esbuild is that of a name
 */
export function compareEntries(folder, most) {
  // esbuild sets this condition by itself.
  const resolver = new Resolver({ root: "/", globalFolders: [folder], conditions: ["module"] });
  const all = packagesIn(folder);
  const step = Math.max(1, all.length / most);
  const entries = Array.from({ length: Math.min(most, all.length) }, (_, at) => all[Math.floor(at * step)]);
  const modules = new Map();
  const bundled = entries.filter((entry) => addBundled(modules, join(folder, entry), folder));
  const edges = [...modules].flatMap(([from, imports]) => imports.map((each) => ({ from, ...each })));
  const different = edges.filter((edge) => !isFound(resolver, edge));
  different.forEach(({ from, path, kind }) => console.log(`esbuild: ${kind} in ${from}: ${path}`));
  console.log(`esbuild bundles ${bundled.length} of ${entries.length} packages, ${edges.length} edges: ` +
    `${different.length} different`);
  return different.length === 0 && edges.length > 0;
}

/** @param {string} folder */
function packagesIn(folder) {
  const names = readdirSync(folder).flatMap((name) => {
    return name.startsWith("@") ? readdirSync(join(folder, name)).map((each) => `${name}/${each}`) : [name];
  });
  return names.filter((name) => {
    try {
      return Boolean(JSON.parse(readFileSync(join(folder, name, "package.json"), "utf8")).name);
    } catch {
      return false;
    }
  });
}

/**
 * @param {Map<string, { path: string, kind: string }[]>} modules to which those are added that are
 *   bundled, with what each imports
 * @param {string} entry
 * @param {string} folder
 * @returns {boolean} whether esbuild could bundle it
 */
function addBundled(modules, entry, folder) {
  const output = mkdtempSync(join(tmpdir(), "resolution-"));
  try {
    const metafile = join(output, "meta.json");
    const words = ["--bundle", "--platform=node", "--loader:.node=file", "--log-level=silent"];
    const { status } = spawnSync("esbuild", [entry, ...words, `--metafile=${metafile}`, `--outdir=${output}`], {
      cwd: "/", env: { ...process.env, NODE_PATH: folder },
    });
    if (status !== 0) {
      return false;
    }
    for (const [path, { imports }] of Object.entries(JSON.parse(readFileSync(metafile, "utf8")).inputs)) {
      if (!NO_FILE.test(path)) {
        const files = imports.filter((each) => !each.external && !NO_FILE.test(each.path));
        modules.set(realOf(path), files.map(({ path: to, kind }) => ({ path: realOf(to), kind })));
      }
    }
    return true;
  } finally {
    rmSync(output, { recursive: true });
  }
}

/** @param {string} path of a metafile, from the root folder */
function realOf(path) {
  return realpathSync(absolute("/", path));
}

/**
 * Whether a name in a module leads where esbuild has an edge.
 * @param {import("../bindings/node/modinfo-graph/dist/graph/resolver.js").Resolver} resolver
 * @param {{ from: string, path: string, kind: string }} edge
 */
function isFound(resolver, { from, path, kind }) {
  const names = [...readFileSync(from, "utf8").matchAll(NAME)].map(([, , name]) => name);
  const url = pathToFileURL(path).href;
  return names.some((name) => resolver.resolve(name, from, { kind: KINDS[kind] }).file === url);
}
