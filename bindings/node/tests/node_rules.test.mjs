/** Node's rules, as node itself has them: for random packages, and for those that are installed. */

import assert from "node:assert/strict";
import {
  mkdirSync, mkdtempSync, readFileSync, readdirSync, realpathSync, rmSync, statSync, writeFileSync,
} from "node:fs";
import { Module } from "node:module";
import { tmpdir } from "node:os";
import { dirname, join } from "node:path";
import { test } from "node:test";

import { RegularFiles } from "../modinfo-graph/dist/files/regular_files.js";
import { NodeRules } from "../modinfo-graph/dist/graph/node_rules.js";
import { PackageFolders } from "../modinfo-graph/dist/graph/package_folders.js";
import { PackageManifests } from "../modinfo-graph/dist/graph/package_manifests.js";
import { CONDITIONS, askNode } from "./by_node.mjs";
import { RandomProject } from "./random_packages.mjs";

/** @typedef {import("./by_node.mjs").Query} Query */

/** Debian's packages. */
const INSTALLED = "/usr/share/nodejs";

/** Of the random names, and how many projects they are of. */
const PROJECTS = 100;
const NAMES_OF_EACH = 500;

/**
 * @param {Query[]} queries
 * @param {string[]} conditions
 * @returns {import("./by_node.mjs").Answer[]}
 */
function askRules(queries, conditions) {
  const files = new RegularFiles();
  files.addProject("/");
  const all = [...CONDITIONS, ...conditions];
  const packages = new PackageFolders(files, /** @type {any} */ (Module).globalPaths);
  const rules = new NodeRules(files, new PackageManifests(files), packages, {
    import: new Set([...all, "import"]), require: new Set([...all, "require"]),
  });
  /** @type {(mode: "import" | "require", query: Query) => string} */
  const answer = (mode, [importer, name]) => {
    const found = rules[mode](name, importer);
    return found.kind === "file" ? found.path : found.kind;
  };
  return queries.map((query) => ({ import: answer("import", query), require: answer("require", query) }));
}

/**
 * @param {Query[]} queries
 * @param {string[]} [conditions]
 * @returns {{ differences: string[], found: number }} the first differences, and how many names node finds
 */
function compare(queries, conditions = []) {
  const own = askRules(queries, conditions);
  const byNode = askNode(queries, conditions);
  const differences = [];
  let found = 0;
  for (const [at, [importer, name]] of queries.entries()) {
    for (const mode of /** @type {const} */ (["import", "require"])) {
      found += Number(byNode[at][mode] !== "none");
      if (own[at][mode] !== byNode[at][mode]) {
        differences.push(`${mode} ${JSON.stringify(name)} in ${importer}: ${own[at][mode]}, node: ${byNode[at][mode]}`);
      }
    }
  }
  return { differences, found };
}

// Node 18 finds some packages that node 20 and the resolver don't.
const skip = Number(process.versions.node.split(".")[0]) < 20 && "an older node";

for (const conditions of [[], ["special"]]) {
  test(`random names in random packages lead where node's do, ${conditions.length} conditions added`, { skip }, (context) => {
    const seed = Number(process.env.SEED ?? Math.floor(Math.random() * 1e9));
    context.diagnostic(`SEED=${seed}`);
    const folder = realpathSync(mkdtempSync(join(tmpdir(), "modinfo-random-")));
    try {
      const queries = Array.from({ length: PROJECTS / 2 }, (_, at) => {
        return new RandomProject(seed + at, mkdtempSync(join(folder, "p-"))).queries(NAMES_OF_EACH);
      }).flat();
      const { differences, found } = compare(queries, conditions);
      context.diagnostic(`${2 * queries.length} queries, of which node finds ${found}`);
      assert.deepEqual(differences.slice(0, 20), [], `SEED=${seed}`);
      assert.ok(found > queries.length / 10, String(found));
    } finally {
      if (!process.env.KEEP) {
        rmSync(folder, { recursive: true });
      }
    }
  });
}

test("relative names and packages lead where node's do, in folders whose names aren't those of a URL", () => {
  const folder = realpathSync(mkdtempSync(join(tmpdir(), "modinfo-names-")));
  const folders = ["plain", "a b", "a%20b", "a\\b", "é", "a?b", "a#b", "+@~-._", "node_modules", "..a"];
  const relatives = ["./y.js", "../z.js", "./../z.js", "../.././z.js", "./y", ".//y.js", "./%79.js", "./..", "../", "./y.js/"];
  const packages = ["p", "p/y.js", "p/y", "@s/p/y.js", "@s/../p/y.js", "p~+-/y.js", "p p/y.js", "é/y.js", "p\t/y.js"];
  for (const each of folders) {
    for (const name of ["x.js", "y.js", "../z.js", ...packages.map((own) => `node_modules/${own.split("/y")[0]}/y.js`)]) {
      mkdirSync(dirname(join(folder, each, name)), { recursive: true });
      writeFileSync(join(folder, each, name), "");
    }
  }
  const queries = folders.flatMap((each) => {
    const names = [...relatives, ...packages, ...folders.map((other) => `../${other}/y.js`)];
    return names.map((name) => /** @type {Query} */ ([join(folder, each, "x.js"), name]));
  });
  const { differences, found } = compare(queries);
  rmSync(folder, { recursive: true });
  assert.deepEqual(differences, []);
  assert.ok(found > queries.length / 3, String(found));
});

/** What a file imports or requires, by a search that finds more than that. */
const NAME = /\b(?:require\s*\(\s*|import\s*\(?\s*|from\s*)(["'])([^"'\n\\]*)\1/g;

test("all that Debian's packages import or require leads where node's does", (context) => {
  if (!statSync(INSTALLED, { throwIfNoEntry: false })) {
    context.skip(`there is no ${INSTALLED}`);
    return;
  }
  const paths = readdirSync(INSTALLED, { recursive: true }).map((name) => join(INSTALLED, String(name)))
    .filter((path) => /\.[cm]?js$/.test(path) && statSync(path, { throwIfNoEntry: false })?.isFile());
  const files = new Set(paths.map((path) => realpathSync(path)));
  const queries = [...files].flatMap((path) => {
    const names = new Set([...readFileSync(path, "utf8").matchAll(NAME)].map(([, , name]) => name));
    return [...names].map((name) => /** @type {Query} */ ([path, name]));
  });
  const { differences, found } = compare(queries);
  context.diagnostic(`${2 * queries.length} queries of ${files.size} files, of which node finds ${found}`);
  assert.deepEqual(differences.slice(0, 20), []);
});
