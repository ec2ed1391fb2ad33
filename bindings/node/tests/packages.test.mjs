/** Packages that are imported and not listed in package.json, and the reverse. */

import assert from "node:assert/strict";
import { symlinkSync } from "node:fs";
import { join } from "node:path";
import { test } from "node:test";

import { folderOf, run, urlOf } from "./run_commands.mjs";

/**
 * What `--packages` prints in a folder, as lines, and its status.
 * @param {Record<string, string>} files
 * @param {string[]} [words]
 */
function packages(files, words = ["."]) {
  const { stdout, stderr, status } = run("files", ["--packages", ...words], { cwd: folderOf(files) });
  assert.equal(stderr, "");
  return { lines: stdout.split("\n").slice(0, -1), status };
}

/** @param {object} members */
const manifest = (members) => JSON.stringify({ name: "own", ...members });

test("packages that are imported and not listed are findings, with each file that imports them", () => {
  assert.deepEqual(packages({
    "package.json": manifest({ dependencies: { a: "1" }, devDependencies: { "@s/b": "1" }, peerDependencies: { c: "1" }, optionalDependencies: { d: "1" } }),
    "x.js": `import "a/lib";\nimport "@s/b";\nimport "@s/other/x";\nimport "c";\nimport "d";\nimport "own";\nimport "node:fs";\nimport "fs";\nimport "e";\nimport "e/2";\n`,
    "y.ts": `import type { E } from "e";\n`,
  }), {
    lines: [
      "x.js:3:8: @s/other: not listed in package.json", "x.js:9:8: e: not listed in package.json",
      "y.ts:1:24: e: not listed in package.json",
    ],
    status: 1,
  });
});

test("packages that are listed and not imported are findings, whether by an import, a require or types", () => {
  assert.deepEqual(packages({
    "package.json": manifest({ dependencies: { a: "1", b: "1", gone: "1" }, devDependencies: { c: "1", old: "1" }, peerDependencies: { peer: "1" }, optionalDependencies: { fast: "1" } }),
    "x.ts": `import "a";\nconst b = require("b/x");\nimport type { C } from "c";\n`,
  }), {
    lines: [
      "package.json: gone: in dependencies, and no module imports it",
      "package.json: old: in devDependencies, and no module imports it",
      "package.json: peer: in peerDependencies, and no module imports it",
    ],
    status: 1,
  });
});

test("types, programs of scripts, configurations, peers and strings are reasons", () => {
  const dependencies = {
    react: "1", "@types/react": "1", "@types/node": "1", "@types/s__t": "1", eslint: "1", "eslint-plugin-import": "1",
    typescript: "1", "the-builder": "1", prettier: "1", "ts-jest": "1", "react-dom": "1", "a-plugin": "1", husky: "1",
  };
  const { lines, status } = packages({
    "package.json": manifest({ devDependencies: dependencies, scripts: { build: "NODE_ENV=x build-it && eslint ." }, jest: { preset: "ts-jest" } }),
    "x.ts": `import "react";\nimport { S } from "@s/t";\nload("a-plugin/sub");\n`,
    ".eslintrc.json": `{"plugins":["import"]}`, "tsconfig.json": "{}", ".prettierrc": "{}",
    ".github/workflows/ci.yml": "run: npx husky\n",
    "node_modules/the-builder/package.json": `{"bin":{"build-it":"x.js"}}`,
    "node_modules/react/package.json": `{"name":"react","main":"i.js","peerDependencies":{"react-dom":"1"}}`, "node_modules/react/i.js": "",
  });
  assert.deepEqual(lines.map((line) => line.replace(/^package\.json: /, "")), [
    "@types/react: may be used: types of react at package.json",
    "@types/node: may be used: types of node at package.json",
    "@types/s__t: may be used: types of @s/t at package.json",
    "eslint: may be used: bin of build at package.json",
    "eslint-plugin-import: may be used: configuration at .eslintrc.json",
    "typescript: may be used: configuration at tsconfig.json",
    "the-builder: may be used: bin of build at package.json",
    "prettier: may be used: configuration at .prettierrc",
    "ts-jest: may be used: configuration at package.json",
    "react-dom: may be used: peer of react at package.json",
    "a-plugin: may be used: text at x.ts",
    "husky: may be used: configuration at .github/workflows/ci.yml",
  ]);
  assert.equal(status, 0);
});

test("a name inside of another one, a lock file and a list of other packages are no reasons", () => {
  assert.deepEqual(packages({
    "package.json": manifest({ dependencies: { left: "1", "left-pad": "1" }, scripts: { test: "node left.js && run-left x/left" }, overrides: { left: "2" } }),
    "x.js": `import "left-pad";\n// a left turn\n`, "package-lock.json": `{"packages":{"left":{}}}`, ".npmrc": "the-left=1\n",
  }), { lines: ["package.json: left: in dependencies, and no module imports it"], status: 1 });
});

test("a package that package.json knows to be unused is no finding, nor has it a reason by that", () => {
  const members = { dependencies: { left: "1" }, modinfo: { known: { packages: ["package.json: left"] } } };
  const cwd = folderOf({ "package.json": manifest(members), "x.js": "" });
  const { stdout, stderr, status } = run("files", ["--packages", "."], { cwd });
  assert.deepEqual([stdout, stderr, status], ["", "modinfo-files: --packages: known findings: 1\n", 0]);
});

test("in a workspace each package has its own list, and those of the folders above", () => {
  const files = {
    "package.json": JSON.stringify({ name: "root", workspaces: ["packages/*"], devDependencies: { tool: "1", unused: "1" } }),
    "packages/one/package.json": JSON.stringify({ name: "one", dependencies: { two: "1", idle: "1" } }),
    "packages/one/src/package.json": `{"type":"module"}`,
    "packages/one/src/x.js": `import "two";\nimport "tool";\nimport "three";\n`,
    "packages/two/package.json": JSON.stringify({ name: "two", main: "i.js" }), "packages/two/i.js": `require("one/src/x.js");`,
    "packages/three/package.json": JSON.stringify({ name: "three", main: "i.js" }), "packages/three/i.js": "",
  };
  const own = [
    "packages/one/src/x.js:3:8: three: not listed in packages/one/package.json",
    "packages/two/i.js:1:9: one: not listed in packages/two/package.json",
  ];
  assert.deepEqual(packages(files), {
    lines: [
      ...own, "package.json: unused: in devDependencies, and no module imports it",
      "packages/one/package.json: idle: in dependencies, and no module imports it",
    ],
    status: 1,
  });
  // The list of the folder above is for packages that aren't read.
  assert.deepEqual(packages(files, ["packages/one"]).lines, [own[0], "packages/one/package.json: idle: in dependencies, and no module imports it"]);
});

test("what an excluded file imports is used, and a link to a package of the project is one", () => {
  const folder = folderOf({
    "package.json": manifest({ devDependencies: { runner: "1", linked: "1" } }),
    "x.js": `import "linked";`, "x.test.js": `import "runner";\nimport "absent";\n`,
    "lib/package.json": `{"name":"linked","main":"i.js"}`, "lib/i.js": "", "node_modules/.keep": "",
  });
  symlinkSync("../lib", join(folder, "node_modules/linked"));
  const { stdout, status } = run("files", ["--packages", "--exclude", "*.test.js", "."], { cwd: folder });
  assert.deepEqual([stdout, status], ["", 0]);
});

test("as JSON packages have their files as URLs", () => {
  const folder = folderOf({ "package.json": manifest({ devDependencies: { old: "1", "@types/node": "1" } }), "x.js": `import "a";` });
  const { stdout } = run("files", ["--packages", "--json", "."], { cwd: folder });
  const path = urlOf(folder, "package.json");
  const { unlisted: [{ by, ...unlisted }], unused, mayBeUsed } = JSON.parse(stdout);
  assert.deepEqual([unlisted, by.map((/** @type {any} */ { module }) => module)], [{ package: "a", manifest: path }, [urlOf(folder, "x.js")]]);
  assert.deepEqual(unused, [{ package: "old", manifest: path, list: "devDependencies" }]);
  assert.deepEqual(mayBeUsed, [{
    package: "@types/node", manifest: path, list: "devDependencies", reason: { kind: "types", text: "node", file: path },
  }]);
});
