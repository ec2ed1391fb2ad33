/** Trees of other parsers, handed in. */

import assert from "node:assert/strict";
import { test } from "node:test";

import { estreeDocument } from "../modinfo/dist/index.js";
import { treeAnswer } from "./documents.mjs";
import { loadParser } from "./equipment/installed_parsers.mjs";

const acorn = loadParser("acorn");

/** @typedef {{ type: string, range: [number, number], [member: string]: unknown }} Node */

/**
 * A node at the first place of its text in a source.
 * @param {string} source
 */
function maker(source) {
  /**
   * @param {string} type
   * @param {string} text
   * @param {Record<string, unknown>} [members]
   * @returns {Node}
   */
  return (type, text, members = {}) => {
    const start = source.indexOf(text);
    return { type, range: [start, start + text.length], ...members };
  };
}

/**
 * The answer to a tree whose body is these nodes.
 * @param {string} source
 * @param {Node[]} body
 */
function answerToTree(source, body, mediaType = "TypeScript") {
  const tree = { type: "Program", range: [0, source.length], body, comments: [] };
  return treeAnswer(source, mediaType, { tree });
}

/**
 * @param {string} source
 * @param {Node[]} body
 */
function dependencies(source, body) {
  return answerToTree(source, body).dependencies.map(({ type, specifierRange, argumentRange, ...others }) => others);
}

test("typescript-estree's imports and exports", () => {
  const source = `import type a from "a"; import b = require("b"); export import c = require("c"); export type * from "d"; export = e;`;
  const node = maker(source);
  /** @param {string} name */
  const external = (name) => node("TSExternalModuleReference", `require("${name}")`, { expression: node("Literal", `"${name}"`, { value: name }) });
  assert.deepEqual(
    dependencies(source, [
      node("ImportDeclaration", `import type a from "a";`, {
        importKind: "type", specifiers: [node("ImportDefaultSpecifier", "a")], attributes: [],
        source: node("Literal", `"a"`, { value: "a" }),
      }),
      node("TSImportEqualsDeclaration", `import b = require("b");`, { importKind: "value", moduleReference: external("b") }),
      node("ExportNamedDeclaration", `export import c = require("c");`, {
        source: null, specifiers: [],
        declaration: node("TSImportEqualsDeclaration", `import c = require("c");`, { importKind: "value", moduleReference: external("c") }),
      }),
      node("ExportAllDeclaration", `export type * from "d";`, {
        exportKind: "type", exported: null, attributes: [], source: node("Literal", `"d"`, { value: "d" }),
      }),
      node("TSExportAssignment", "export = e;", { expression: node("Identifier", "e", { name: "e" }) }),
    ]),
    [
      { kind: "importType", specifier: "a" },
      { kind: "importEquals", specifier: "b" },
      { kind: "exportEquals", specifier: "c" },
      { kind: "exportType", specifier: "d" },
    ],
  );
});

test("typescript-estree's import types and modules", () => {
  const source = `declare module "a" { let b: import("c", { with: { d: "e" } }).F<import("g")>; }`;
  const node = maker(source);
  /** @param {string} value */
  const string = (value) => node("Literal", `"${value}"`, { value });
  /**
   * @param {string} text
   * @param {string} name
   * @param {Node} value
   */
  const property = (text, name, value) => node("Property", text, {
    kind: "init", key: node("Identifier", name, { name }), value, computed: false, shorthand: false, method: false,
  });
  const inOlderTrees = node("TSLiteralType", `"g"`, { literal: string("g") });
  const inner = node("TSImportType", `import("g")`, { argument: inOlderTrees, options: null });
  const clause = node("ObjectExpression", `{ d: "e" }`, { properties: [property(`d: "e"`, "d", string("e"))] });
  const type = node("TSImportType", `import("c", { with: { d: "e" } }).F<import("g")>`, {
    source: string("c"),
    options: node("ObjectExpression", `{ with: { d: "e" } }`, { properties: [property(`with: { d: "e" }`, "with", clause)] }),
    typeArguments: node("TSTypeParameterInstantiation", `<import("g")>`, { params: [inner] }),
  });
  assert.deepEqual(
    dependencies(source, [
      node("TSModuleDeclaration", source, { id: string("a"), body: node("TSModuleBlock", source.slice(19), { body: [type] }) }),
    ]),
    [
      { kind: "maybeTsModuleAugmentation", specifier: "a" },
      { kind: "importType", specifier: "c", importAttributes: { known: { d: "e" } } },
      { kind: "importType", specifier: "g" },
    ],
  );
});

test("phases, await using, Babel's imports and methods", () => {
  const source = `import defer * as a from "a"; import.source("b"); await using c = d; f = { async g() { await import("h"); } }`;
  const node = maker(source);
  /** @param {string} value */
  const string = (value) => node("StringLiteral", `"${value}"`, { value });
  const start = source.lastIndexOf("import");
  const callee = { type: "Import", range: [start, start + "import".length] };
  const awaiting = node("AwaitExpression", `await import("h")`, {
    argument: node("CallExpression", `import("h")`, { callee, arguments: [string("h")] }),
  });
  const items = [
    node("ImportDeclaration", `import defer * as a from "a";`, {
      phase: "defer", specifiers: [node("ImportNamespaceSpecifier", "* as a")], attributes: [], source: string("a"),
    }),
    node("ImportExpression", `import.source("b")`, { phase: "source", source: string("b"), options: null }),
    node("VariableDeclaration", "await using c = d;", { kind: "await using", declarations: [] }),
    node("ObjectMethod", `async g() { await import("h"); }`, {
      computed: false, key: node("Identifier", "g", { name: "g" }), params: [], body: node("BlockStatement", `{ await import("h"); }`, { body: [awaiting] }),
    }),
  ];
  assert.deepEqual(dependencies(source, items), [
    { kind: "importDefer", specifier: "a" }, { kind: "importSource", argument: "b" }, { argument: "h" },
  ]);
  assert.equal(answerToTree(source, items.slice(1)).script, undefined);
  assert.equal(answerToTree(source, [items[3]]).script, true);
});

test("calls of an identifier import, as some parsers have it, and of nothing", () => {
  const source = `f(import("a")); import(); g("b");`;
  const node = maker(source);
  /** @param {string} name */
  const identifier = (name) => node("Identifier", name, { name });
  /** @param {string} value */
  const string = (value) => node("Literal", `"${value}"`, { value });
  /**
   * @param {string} text
   * @param {Node | null} callee
   * @param {Node[]} others
   */
  const call = (text, callee, others) => node("CallExpression", text, { callee, arguments: others, optional: false });
  const inner = call(`import("a")`, identifier("import"), [string("a")]);
  const last = source.indexOf("import()");
  const callee = { ...identifier("import"), range: /** @type {[number, number]} */ ([last, last + "import".length]) };
  const expressions = [
    call(`f(import("a"))`, identifier("f"), [inner]), call("import()", callee, []), call(`g("b")`, null, [string("b")]),
  ];
  const statements = expressions.map((expression) => {
    return { type: "ExpressionStatement", range: expression.range, expression };
  });
  assert.deepEqual(dependencies(source, statements), [{ argument: "a" }]);
});

test("a class whose decorators are null", () => {
  const node = maker("class A {}");
  const members = { id: node("Identifier", "A", { name: "A" }), body: node("ClassBody", "{}", { body: [] }) };
  const declaration = node("ClassDeclaration", "class A {}", { ...members, decorators: null });
  assert.deepEqual(answerToTree("class A {}", [declaration]), { script: true });
});

test("Babel's keys that are numbers are no strings", () => {
  const source = `import("a", { with: { 1n: "b" } }); import("c", { with: { "1": "d" } });`;
  const node = maker(source);
  /** @param {string} value */
  const string = (value) => node("StringLiteral", `"${value}"`, { value });
  /**
   * @param {string} name
   * @param {Node} key
   * @param {Node} value
   */
  const call = (name, key, value) => {
    const text = source.slice(source.indexOf(`import("${name}"`)).split(";")[0];
    const inner = text.slice(text.lastIndexOf("{"), text.indexOf("}") + 1);
    const attribute = node("ObjectProperty", inner.slice(2, -2), { key, value, computed: false, shorthand: false });
    const attributes = node("ObjectExpression", inner, { properties: [attribute] });
    const outer = node("ObjectProperty", `with: ${inner}`, {
      key: node("Identifier", "with", { name: "with" }), value: attributes, computed: false, shorthand: false,
    });
    const options = node("ObjectExpression", `{ with: ${inner} }`, { properties: [outer] });
    const start = source.indexOf(text);
    return node("CallExpression", text, {
      callee: { type: "Import", range: [start, start + "import".length] }, arguments: [string(name), options],
    });
  };
  const number = node("BigIntLiteral", "1n", { value: "1" });
  assert.deepEqual(dependencies(source, [call("a", number, string("b")), call("c", string("1"), string("d"))]), [
    { argument: "a", importAttributes: "unknown" },
    { argument: "c", importAttributes: { known: { 1: "d" } } },
  ]);
});

/**
 * The value of the JSON that is sent for a tree.
 * @param {string} text
 * @param {any} tree
 * @param {object} [options]
 */
function sent(text, tree, options) {
  return JSON.parse(estreeDocument(tree, text, new URL("file:///a.js"), "JavaScript", options));
}

test("of a tree as much is sent as the rules read", () => {
  const text = `f(1n, /a/, () => [await_, require("\\ud800")]); // b`;
  /** @type {any[]} */
  const comments = [];
  const tree = acorn.parse(text, { ecmaVersion: "latest", locations: true, ranges: true, onComment: comments });
  Object.assign(tree.body[0].expression, { parent: tree });
  const [start, end] = [text.indexOf("require"), text.indexOf("]")];
  const literal = { type: "Literal", start: start + 8, end: end - 1, value: [0xd800] };
  const callee = { type: "Identifier", start, end: start + 7, name: "require" };
  const call = { type: "CallExpression", start, end, callee, arguments: [literal], optional: false };
  const statement = { type: "Other", start: 0, end: end + 3, decorators: [], body: [call] };
  assert.deepEqual(sent(text, tree, { comments }), {
    specifier: "file:///a.js", mediaType: "JavaScript", source: text,
    comments: [{ start: text.indexOf("//"), end: text.length }],
    program: { type: "Program", start: 0, end: text.length, body: [statement] },
  });
});

test("the tree may be a file, its comments are those that are handed in or that it has", () => {
  const program = { type: "Program", start: 0, end: 4, body: [], comments: [{ type: "Line", range: [0, 2] }] };
  const file = { type: "File", program, comments: [{ type: "Block", start: 0, end: 4 }] };
  assert.deepEqual(sent("/**/", file).comments, [{ start: 0, end: 4 }]);
  assert.deepEqual(sent("/**/", program).comments, [{ start: 0, end: 2 }]);
  assert.deepEqual(sent("/**/", file, { comments: [] }).comments, []);
  assert.deepEqual(sent("/**/", file).program, { type: "Program", start: 0, end: 4, body: [] });
  assert.deepEqual(sent("", program, { offsets: "utf8" }).offsets, "utf8");
  const without = { ...program, comments: undefined };
  assert.throws(() => sent("", without), { name: "TypeError", message: /^a tree needs its comments/ });
});

test("an await of a function isn't sent, one outside of it is", () => {
  /** @param {string} text */
  const isScript = (text) => {
    const tree = acorn.parse(text, { ecmaVersion: "latest", sourceType: "module" });
    return treeAnswer(text, "JavaScript", { tree, comments: [] }).script ?? false;
  };
  for (const text of ["async () => await a;", "class A { async [b]() { for await (c of await d); } }", "async function a(b = async () => await c) {}"]) {
    assert.equal(isScript(text), true, text);
  }
  for (const text of ["await a;", "for await (a of b) { (() => {})(); }", "class A { async [await b]() {} }", "f(() => 1, (await b)());"]) {
    assert.equal(isScript(text), false, text);
  }
});

test("what a rule reads isn't lost in a tree that is deeper than JSON may be", () => {
  const text = `${"f(() => { ".repeat(200)}import("a");${" });".repeat(200)}`;
  const tree = acorn.parse(text, { ecmaVersion: "latest" });
  const { dependencies: [found] } = treeAnswer(text, "JavaScript", { tree, comments: [] });
  assert.deepEqual(found.argument, "a");
});
