/** What names lead to in small projects of compilers and bundlers, held against what esbuild bundles. */

import assert from "node:assert/strict";
import { spawnSync } from "node:child_process";
import { mkdirSync, readFileSync, realpathSync, symlinkSync } from "node:fs";
import { dirname, join, relative } from "node:path";
import { test } from "node:test";
import { fileURLToPath } from "node:url";

import { Resolver } from "../modinfo-graph/dist/graph/resolver.js";
import { folderOf } from "./run_commands.mjs";

/**
 * @typedef {object} Project
 * @property {string} entry its path
 * @property {Record<string, string>} files texts by their paths
 * @property {Record<string, string>} [links] targets by their paths
 * @property {"node" | "browser"} [platform]
 */

/** @type {Record<string, Project>} */
const PROJECTS = {
  "a plain Vite project": {
    entry: "src/main.tsx", platform: "browser",
    files: {
      "package.json": `{"type":"module"}`, "src/App.tsx": `import "./x.js"; import "./both"; import "./dotted.name";`,
      "src/main.tsx": `import "./App"; import "./util"; import "./store"; import "./data.json"; import("./lazy"); import "..";`,
      "src/util/index.ts": `export * from "../store.js"; import "./";`, "src/store.js": `import "./x";`,
      "src/data.json": "{}", "src/lazy.ts": "", "src/x.ts": "", "src/both.ts": "", "src/both.js": "", "src/dotted.name.ts": "",
      "index.js": "",
    },
  },
  "a workspace": {
    entry: "packages/b/main.ts",
    links: { "node_modules/a": "../packages/a", "node_modules/@s/c": "../../packages/c" },
    files: {
      "package.json": `{"workspaces":["packages/*"]}`,
      "packages/a/package.json": `{"name":"a","main":"./src/index.ts"}`, "packages/a/src/index.ts": `import "./deep";`,
      "packages/a/src/deep.ts": `import "@s/c/feature";`,
      "packages/c/package.json": `{"name":"@s/c","exports":{".":"./c.ts","./*":"./lib/*.ts"}}`, "packages/c/c.ts": `import "@s/c/own";`,
      "packages/c/lib/feature.ts": "", "packages/c/lib/own.ts": "",
      "packages/b/package.json": `{"name":"b"}`, "packages/b/main.ts": `import "a"; import "a/src/deep"; import "@s/c";`,
    },
  },
  "browser of package.json": {
    entry: "main.js", platform: "browser",
    files: {
      "package.json": `{"name":"own","browser":{"./node.js":"./web.js","p":"./stub.js"}}`, "node.js": "", "web.js": "", "stub.js": "",
      "main.js": `import "./node.js"; import "./node"; import "p"; import "q"; import "r"; require("r");`,
      "node_modules/p/index.js": "", "node_modules/q/package.json": `{"main":"main.js","browser":"web.js"}`,
      "node_modules/q/main.js": "", "node_modules/q/web.js": "",
      "node_modules/r/package.json": `{"exports":{"browser":"./web.js","default":"./node.js"}}`,
      "node_modules/r/web.js": "", "node_modules/r/node.js": "",
    },
  },
  "paths and baseUrl of a tsconfig.json": {
    entry: "src/main.ts",
    files: {
      "tsconfig.json": `{"compilerOptions":{"baseUrl":".","paths":{"@/*":["./none/*","./src/*"],"exact":["./src/b.ts"]}}}`,
      "src/main.ts": `import "@/b"; import "@/c/index.js"; import "exact"; import "src/d";`,
      "src/b.ts": "", "src/c/index.ts": `import "@/d";`, "src/d.ts": "",
    },
  },
  "names of node's modules for a browser": {
    entry: "src/main.ts", platform: "browser",
    files: {
      "tsconfig.json": `{"compilerOptions":{"baseUrl":"src","paths":{"os":["./shims/os.ts"]}}}`,
      "src/main.ts": `import "constants"; import "os";`, "src/constants/index.ts": "", "src/shims/os.ts": "",
    },
  },
};

const NAME = /\b(?:import|from|require)\s*\(?\s*"([^"]*)"/g;

const isAbsent = spawnSync("esbuild", ["--version"]).error && "esbuild isn't there";

for (const [what, project] of Object.entries(PROJECTS)) {
  test(`${what}: each name leads where esbuild's does`, { skip: isAbsent }, () => {
    const folder = realpathSync(folderOf(project.files));
    for (const [path, target] of Object.entries(project.links ?? {})) {
      mkdirSync(dirname(join(folder, path)), { recursive: true });
      symlinkSync(target, join(folder, path));
    }
    const expected = edgesByEsbuild(folder, project);
    const names = Object.values(project.files).flatMap((text) => [...text.matchAll(NAME)]);
    assert.equal(expected.length, names.length);
    assert.deepEqual(edgesOf(folder, project), expected.sort());
  });
}

/**
 * @param {string} folder
 * @param {Project} project
 * @returns {string[]} as `FROM -> TO`
 */
function edgesByEsbuild(folder, { entry, platform = "node" }) {
  const words = ["--bundle", `--platform=${platform}`, "--outdir=out", "--metafile=meta.json", "--log-level=error"];
  const { stderr, status } = spawnSync("esbuild", [entry, ...words], { cwd: folder });
  assert.deepEqual([String(stderr), status], ["", 0]);
  const { inputs } = JSON.parse(readFileSync(join(folder, "meta.json"), "utf8"));
  return Object.entries(inputs).flatMap(([from, { imports }]) => {
    return imports.map((/** @type {{ path: string }} */ { path }) => `${from} -> ${path}`);
  });
}

/**
 * @param {string} folder
 * @param {Project} project
 * @returns {string[]}
 */
function edgesOf(folder, { files, platform = "node" }) {
  // esbuild sets these conditions by itself.
  const conditions = platform === "browser" ? ["browser", "module"] : ["module"];
  const resolver = new Resolver({ root: folder, conditions });
  const edges = Object.entries(files).flatMap(([from, text]) => [...text.matchAll(NAME)].map(([call, name]) => {
    const kind = call.startsWith("require") ? "require" : "import";
    const { file } = /** @type {{ file?: string }} */ (resolver.resolve(name, join(folder, from), { kind }));
    return `${from} -> ${file && relative(folder, fileURLToPath(file))}`;
  }));
  return edges.sort();
}
