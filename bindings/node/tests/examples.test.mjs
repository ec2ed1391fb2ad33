/** The examples: the answers that are beside them. */

import assert from "node:assert/strict";
import { spawnSync } from "node:child_process";
import { existsSync, readdirSync, readFileSync } from "node:fs";
import { test } from "node:test";

import { MODINFO } from "./run_commands.mjs";
import { fault, readSchema } from "./schema.mjs";

const FOLDER = new URL("../../../examples/", import.meta.url);
/** @typedef {import("./any_kind.mjs").AnyDocument} AnyDocument */

const names = readdirSync(FOLDER)
  .filter((name) => name.endsWith(".out.json"))
  .map((name) => name.replace(/\.out\.json$/, ""));

/** @param {string} name */
function read(name) {
  return JSON.parse(readFileSync(new URL(name, FOLDER), "utf8"));
}

/**
 * What the program prints.
 * @param {string[]} words
 * @param {object} document
 */
function modinfo(words, document) {
  const { stdout, stderr, status } = spawnSync(MODINFO, words, { input: JSON.stringify(document) });
  assert.equal(status, 0, String(stderr));
  return JSON.parse(String(stdout));
}

for (const name of names) {
  const document = read(`${name}.json`);
  const expected = read(`${name}.out.json`);

  test(`${name}: document and answer keep their schemas`, () => {
    assert.equal(fault(document, readSchema("document")), undefined);
    assert.equal(fault(expected, readSchema("module-info")), undefined);
  });

  test(`${name}: the program finds it in the document, and in the text`, { skip: !existsSync(MODINFO) && "build/modinfo isn't made" }, () => {
    const { source, specifier, mediaType } = document;
    assert.deepEqual(modinfo(["analyze"], document), expected);
    assert.deepEqual(modinfo(["analyze", "--source"], { source, specifier, mediaType }), expected);
  });
}

test("the schemas refuse what has neither format", () => {
  const document = read("side-effect-import.json");
  /** @param {(document: AnyDocument) => object} change */
  const broken = (change) => fault(change(structuredClone(document)), readSchema("document"));
  /** @param {(item: any) => unknown} change */
  const inItem = (change) => broken((each) => (change(each.program.body[0]), each));
  assert.equal(broken((each) => each), undefined);
  assert.ok(broken(({ source, ...others }) => others));
  assert.ok(broken((each) => ({ ...each, mediaType: "Text" })));
  assert.ok(inItem((item) => (item.kind = "Import")));
  assert.ok(inItem((item) => (item.range = [0, 1.5])));
  assert.ok(inItem((item) => (item.range = [0, 1, 2])));
  assert.ok(inItem((item) => (item.hasWith = true)));
  assert.ok(inItem((item) => (item.src.value = [65536])));
  assert.ok(inItem((item) => (item.children = [{ kind: "Binary", range: [0, 1], op: "add" }])));
  assert.ok(fault({ dependencies: [{ type: "dynamic" }] }, readSchema("module-info")));
  assert.ok(fault({ dependencies: null }, readSchema("module-info")));
});
