/** What the program finds in TypeScript. */

import assert from "node:assert/strict";
import { test } from "node:test";

import { typescriptAnswer } from "./documents.mjs";

/**
 * The dependencies of a text without their ranges.
 * @param {string} text
 * @param {string} [mediaType]
 */
function dependencies(text, mediaType) {
  return (typescriptAnswer(text, mediaType).dependencies ?? [])
    .map(({ type, specifierRange, argumentRange, ...others }) => others);
}

/**
 * The place of the first dependency.
 * @param {string} text
 */
function place(text) {
  const [{ specifierRange, argumentRange }] = typescriptAnswer(text).dependencies;
  return specifierRange ?? argumentRange;
}

test("type-only imports and exports", () => {
  assert.deepEqual(
    dependencies(`
      import type A from "a"; import type { B } from "b"; import type * as C from "c"; import { type D } from "d";
      import type from "e"; import type = require("f"); import type G = require("g");
      export type { H } from "h"; export { type I } from "i"; export type { J };
    `),
    [
      ...["a", "b", "c"].map((specifier) => ({ kind: "importType", specifier })),
      { kind: "import", specifier: "d" },
      { kind: "import", specifier: "e" },
      { kind: "importEquals", specifier: "f" },
      { kind: "importType", specifier: "g" },
      { kind: "exportType", specifier: "h" },
      { kind: "export", specifier: "i" },
    ],
  );
});

test("export type * from", () => {
  assert.deepEqual(dependencies(`export type * from "a"; export type * as b from "b"`), [
    { kind: "exportType", specifier: "a" }, { kind: "exportType", specifier: "b" },
  ]);
});

test("import defer", () => {
  assert.deepEqual(dependencies(`import defer * as a from "a"; import.defer("b")`), [
    { kind: "importDefer", specifier: "a" }, { kind: "importDefer", argument: "b" },
  ]);
});

test("attributes of import types", () => {
  /** @param {string} text */
  const attributes = (text) => dependencies(`let a: import("a", ${text})`)[0].importAttributes;
  assert.deepEqual(attributes(`{ with: { "resolution-mode": "import" } }`), { known: { "resolution-mode": "import" } });
  assert.deepEqual(attributes(`{ assert: { "resolution-mode": "require" } }`), { known: { "resolution-mode": "require" } });
});

test("attributes of declarations", () => {
  /** @param {string} text */
  const clause = (text) => dependencies(text)[0].importAttributes;
  assert.deepEqual(clause(`import type { A } from "a" with { "resolution-mode": "require" };`), { known: { "resolution-mode": "require" } });
  assert.deepEqual(clause(`export type { A } from "a" assert { "resolution-mode": "import" };`), { known: { "resolution-mode": "import" } });
  assert.deepEqual(clause(`import a from "a" with { type: "json" };\nimport b from "b" with { type: "text" };`), { known: { type: "json" } });
  assert.deepEqual(dependencies(`import a from "a" with {};\nimport b from "b" with { type: "text" };`)[1].importAttributes, { known: { type: "text" } });
});

test("calls of the phases of an import", () => {
  assert.deepEqual(dependencies(`import.meta("a");`), []);
  assert.deepEqual(dependencies(`import.defer("a"); import.source("b");`), [
    { kind: "importDefer", argument: "a" }, { kind: "importSource", argument: "b" },
  ]);
});

test("module declarations", () => {
  const text = `
    declare module "*.css"; declare module "./*.css" { let a: import("a"); } declare module "b" { import "c"; }
    declare global { export * from "d"; let e: import("e"); } namespace f.g { export { h } from "h"; }
    module i { let j: import("j"); }
  `;
  assert.deepEqual(dependencies(text), [
    { kind: "maybeTsModuleAugmentation", specifier: "./*.css" }, { kind: "importType", specifier: "a" },
    { kind: "maybeTsModuleAugmentation", specifier: "b" }, { kind: "import", specifier: "c", sideEffect: true },
    { kind: "export", specifier: "d" }, { kind: "importType", specifier: "e" },
    { kind: "export", specifier: "h" }, { kind: "importType", specifier: "j" },
  ]);
  assert.equal(typescriptAnswer(text).script, true);
  assert.deepEqual(place(`declare module 'a';`), [[0, 15], [0, 18]]);
});

test("what is a script", () => {
  /**
   * @param {string} text
   * @param {string} [mediaType]
   */
  const isScript = (text, mediaType) => typescriptAnswer(text, mediaType).script ?? false;
  for (const text of ["export = a", "export as namespace a", "import a = require('a')", "declare module 'a' { export {}; export default a; }", "let a: import('a')"]) {
    assert.equal(isScript(text, "Dts"), true, text);
  }
  for (const text of ["export type A = B", "export interface A {}", "export declare let a: B", "export enum A {}", "export default interface A {}", "import type A from 'a'", "export abstract class A {}", "export namespace a {}"]) {
    assert.equal(isScript(text), false, text);
  }
  assert.equal(isScript("class A { @b(await c) d() {} }"), false);
  assert.equal(isScript("class A { constructor() { async () => await a; } set b(c) { async () => await c; } }"), true);
  assert.equal(isScript("const a = await (b);"), false);
  assert.equal(isScript("const a = await [b];", "JavaScript"), false);
});

test("await using", () => {
  assert.equal(typescriptAnswer("await using a = b;").script, undefined);
  assert.equal(typescriptAnswer("async () => { await using a = b; }").script, true);
});

test("casts and assertions are no literals", () => {
  for (const unknown of [`"a" as string`, `"a"!`, `<any> "a"`]) {
    assert.deepEqual(dependencies(`import(${unknown})`), [{}], unknown);
  }
  assert.deepEqual(dependencies(`require<import("a")>("b")`), [{ kind: "importType", specifier: "a" }, { kind: "require", argument: "b" }]);
});

test("each media type is parsed as its own", () => {
  for (const mediaType of ["TypeScript", "Mts", "Cts"]) {
    assert.deepEqual(dependencies(`const a = <any> require("a")`, mediaType).length, 1);
  }
  for (const mediaType of ["Tsx", "Jsx", "JavaScript"]) {
    assert.deepEqual(dependencies(`const a = <b>{require("a")}</b>`, mediaType).length, 1);
  }
  for (const mediaType of ["Dts", "Dmts", "Dcts"]) {
    assert.deepEqual(dependencies(`export declare const a: import("a");`, mediaType).length, 1);
  }
});

test("an identifier may be spelled with escapes", () => {
  const found = [{ kind: "require", argument: "a" }];
  assert.deepEqual(dependencies(String.raw`r\u0065quire("a")`, "JavaScript"), found);
  assert.deepEqual(dependencies(String.raw`\u{72}equire("a")`, "TypeScript"), found);
});
