/** The sources of the packages: what no linter looks at, since Debian's eslint reads no TypeScript. */

import assert from "node:assert/strict";
import { readFileSync, readdirSync } from "node:fs";
import { createRequire } from "node:module";
import { join, relative } from "node:path";
import { before, describe, test } from "node:test";
import { fileURLToPath } from "node:url";

import { parserFolder } from "./compile.mjs";
import { run } from "./run_commands.mjs";

const ROOT = fileURLToPath(new URL("..", import.meta.url));
const PACKAGES = ["modinfo", "modinfo-graph", "modinfo-report"];

const MOST_LINES_OF_FUNCTION = 40;
const MOST_COLUMNS = 115;

/** @param {string} folder @returns {string[]} */
const sourcesBelow = (folder) => readdirSync(folder, { withFileTypes: true }).flatMap((entry) => {
  const path = join(folder, entry.name);
  return entry.isDirectory() ? sourcesBelow(path) : /\.c?ts$/.test(path) ? [path] : [];
});

const SOURCES = PACKAGES.flatMap((name) => sourcesBelow(join(ROOT, name, "src")));
const parser = parserFolder("typescript");

describe("the sources", { skip: !parser && "there is no TypeScript" }, () => {
  /** @type {any} */
  let ts;
  before(() => {
    ts = createRequire(import.meta.url)(String(parser));
  });

  /**
   * @param {string} path
   * @param {(node: any, source: any) => void} act is called with each node
   */
  const eachNode = (path, act) => {
    const source = ts.createSourceFile(path, readFileSync(path, "utf8"), ts.ScriptTarget.Latest, true);
    const visit = (/** @type {any} */ node) => {
      act(node, source);
      ts.forEachChild(node, visit);
    };
    visit(source);
  };

  /** Where a node is, as FILE:LINE. */
  const placeOf = (/** @type {any} */ node, /** @type {any} */ source) => {
    return `${relative(ROOT, source.fileName)}:${source.getLineAndCharacterOfPosition(node.getStart()).line + 1}`;
  };

  test(`no function has more than ${MOST_LINES_OF_FUNCTION} lines of code`, () => {
    /** @type {string[]} */
    const long = [];
    SOURCES.forEach((path) => eachNode(path, (node, source) => {
      const lines = node.body ? node.getText(source).split("\n") : [];
      const code = lines.filter((/** @type {string} */ line) => !/^\s*(?:$|\/\/|\/\*|\*)/.test(line));
      if (ts.isFunctionLike(node) && code.length > MOST_LINES_OF_FUNCTION) {
        long.push(`${placeOf(node, source)}: ${code.length} lines`);
      }
    }));
    assert.deepEqual(long, []);
  });

  test("there is no any, no enum, no namespace, and no error is ignored", () => {
    /** @type {string[]} */
    const found = [];
    SOURCES.forEach((path) => eachNode(path, (node, source) => {
      const { AnyKeyword, EnumDeclaration, ModuleDeclaration } = ts.SyntaxKind;
      const isGlobal = node.kind === ModuleDeclaration && node.name.text === "global";
      if ([AnyKeyword, EnumDeclaration, ModuleDeclaration].includes(node.kind) && !isGlobal) {
        found.push(placeOf(node, source));
      }
    }));
    assert.deepEqual(found, []);
    assert.deepEqual(SOURCES.filter((path) => /@ts-(?:ignore|nocheck|expect-error)/.test(readFileSync(path, "utf8"))), []);
  });

  test(`no line has more than ${MOST_COLUMNS} columns`, () => {
    const long = SOURCES.flatMap((path) => readFileSync(path, "utf8").split("\n").flatMap((line, at) => {
      return line.length > MOST_COLUMNS ? [`${relative(ROOT, path)}:${at + 1}`] : [];
    }));
    assert.deepEqual(long, []);
  });
});

test("no module and no type leads back to itself", () => {
  for (const name of PACKAGES) {
    const { stdout, stderr, status } = run("files", ["--cycles", "--types", "src"], { cwd: join(ROOT, name) });
    assert.deepEqual([stdout, stderr, status], ["", "", 0], name);
  }
});

/** The folders of modinfo-graph, each after those that it may import. */
const FOLDERS = ["runtime", "files", "graph", "cli"];

test("the folders of modinfo-graph have a direction", () => {
  const root = join(ROOT, "modinfo-graph/src");
  /** @type {string[]} */
  const wrong = [];
  for (const path of FOLDERS.flatMap((name) => sourcesBelow(join(root, name)))) {
    const own = relative(root, path).split("/")[0];
    for (const [, name] of readFileSync(path, "utf8").matchAll(/ from "(\.[^"]+)"/g)) {
      const other = relative(root, join(path, "..", name)).split("/")[0];
      if (FOLDERS.indexOf(other) > FOLDERS.indexOf(own)) {
        wrong.push(`${relative(root, path)}: ${name}`);
      }
    }
  }
  assert.deepEqual(wrong, []);
});
