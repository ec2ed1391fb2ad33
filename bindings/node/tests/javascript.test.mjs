/** What the program finds in JavaScript. */

import assert from "node:assert/strict";
import { test } from "node:test";

import { answerOf } from "./documents.mjs";

const EXPR = { type: "expr" };
/** @param {string} value */
const string = (value) => ({ type: "string", value });

/**
 * The dependencies of a text without their ranges.
 * @param {string} text
 * @param {string} [mediaType]
 */
function dependencies(text, mediaType) {
  return (answerOf(text, mediaType).dependencies ?? [])
    .map(({ type, specifierRange, argumentRange, ...others }) => others);
}

/**
 * What is known of the first argument.
 * @param {string} expression
 */
function argument(expression) {
  return dependencies(`import(${expression})`)[0].argument;
}

/**
 * The attributes by the second argument.
 * @param {string} expression
 */
function attributes(expression) {
  return dependencies(`import("a", ${expression})`)[0].importAttributes;
}

test("imports and exports", () => {
  assert.deepEqual(
    dependencies(`
      import "a"; import {} from "b"; import c from "c"; import * as d from "d"; import { e } from "e";
      export * from "f"; export * as g from "g"; export { h } from "h"; export {}; export default 1;
    `),
    [
      { kind: "import", specifier: "a", sideEffect: true },
      { kind: "import", specifier: "b", sideEffect: true },
      ...["c", "d", "e"].map((specifier) => ({ kind: "import", specifier })),
      ...["f", "g", "h"].map((specifier) => ({ kind: "export", specifier })),
    ],
  );
});

test("attributes of declarations", () => {
  /** @param {string} text */
  const clause = (text) => dependencies(text)[0].importAttributes;
  assert.deepEqual(clause(`import a from "a" with { type: "json" };`), { known: { type: "json" } });
  assert.deepEqual(clause(`import a from "a" assert { "type": "json" };`), { known: { type: "json" } });
  assert.deepEqual(clause(`import "a" /* with { */ with {} ;`), { known: {} });
  assert.deepEqual(clause(`export * from "a" with { type: "json", }`), { known: { type: "json" } });
  assert.deepEqual(clause(`export { b } from "a" with /* { */ { type: "b", c: "d" , }`), { known: { type: "b", c: "d" } });
  assert.equal(clause(`import "a" // with {}\n{}`), undefined);
});

test("which calls are dependencies", () => {
  assert.deepEqual(dependencies(`import("a"); require("b"); new require("c"); require(); require.resolve("d");`), [
    { argument: "a" }, { kind: "require", argument: "b" },
  ]);
  assert.deepEqual(dependencies(`require?.("a"); (require)("b"); a.require("c"); require("d")?.e; require(...f)`), [
    { kind: "require", argument: "d" }, { kind: "require" },
  ]);
  assert.deepEqual(dependencies("require`a`"), []);
});

test("calls come after those inside them, wherever these are", () => {
  const found = dependencies(`
    require(f(require("a"), { b: [require(\`\${require("b")}\`)] }), { with: import("c"), [import("d")]: 1, ...import("e") }, import("f"));
    class A { [require("g")] = require("h"); static { require("i"); } #j = () => require("j"); }
  `);
  assert.deepEqual(found.map((each) => each.argument), ["a", "b", [EXPR], "c", "d", "e", "f", undefined, "g", "h", "i", "j"]);
});

test("what is known of an argument", () => {
  assert.equal(argument(`"a"`), "a");
  assert.equal(argument("`a`"), "a");
  assert.equal(argument("``"), "");
  assert.deepEqual(argument("`${a}b${c}`"), [EXPR, string("b"), EXPR]);
  assert.deepEqual(argument(`"a" + b + "" + "c" + \`d\``), [string("a"), EXPR, string(""), string("c"), EXPR]);
  assert.deepEqual(argument(`"a" + (b + "c")`), [string("a"), EXPR]);
  assert.deepEqual(argument(`"a" + ("b")`), [string("a"), EXPR]);
  for (const unknown of [`a + "b"`, `("a")`, `(("a"))`, `("a") + b`, `("a" + b)`, `("a" + b) + c`, `"a" - b + c`, "a`b`", `(\`a\`)`, `"a" || b`, "1"]) {
    assert.equal(argument(unknown), undefined, unknown);
  }
});

test("an argument's place takes in its parentheses and dots", () => {
  /** @param {string} text */
  const place = (text) => answerOf(text).dependencies[0].argumentRange;
  assert.deepEqual(place(`import( ( ("a") ) )`), [[0, 8], [0, 17]]);
  assert.deepEqual(place(`require(...("ab"))`), [[0, 8], [0, 17]]);
  assert.deepEqual(place(`require((a, b), c)`), [[0, 8], [0, 14]]);
  assert.deepEqual(place(`import /* ( */ ( /* ( */ "a" /* ) */ )`), [[0, 25], [0, 28]]);
});

test("attributes of calls", () => {
  assert.equal(dependencies(`import("a",)`)[0].importAttributes, undefined);
  assert.equal(attributes("{}"), undefined);
  assert.deepEqual(attributes(`{ with: { type: "json", "b": c } }`), { known: { type: "json", b: null } });
  assert.deepEqual(attributes(`{ "assert": { type: ("json") } }`), { known: { type: null } });
  assert.deepEqual(attributes(`{ with: { type: \`json\` } }`), { known: { type: null } });
  assert.deepEqual(attributes(`{ a: { type: "json" } }`), undefined);
  for (const unknown of [
    "a", "({})", "{ ...a }", "{ a }", "{ with: a }", "{ with: ({}) }", "{ with() {} }", "{ get with() { return {}; } }",
    `{ ["with"]: {} }`, "{ 1: {} }", "{ with: { a } }", "{ with: { [a]: b } }", "{ with: { ...a } }",
  ]) {
    assert.equal(attributes(unknown), "unknown", unknown);
  }
  assert.equal(dependencies(`require("a", ...b)`)[0].importAttributes, "unknown");
});

test("what is a script", () => {
  /** @param {string} text */
  const isScript = (text) => answerOf(text).script ?? false;
  for (const text of [
    "", ";", `"use strict"`, `require("a")`, `import("a")`, "async () => await a", "class A { async a() { await b; } }",
    "const a = { async b() { for await (const c of d); }, get e() { return f; } }",
    "function a() { return new.target; }", "async function a() { return async () => { await b; }; }",
  ]) {
    assert.equal(isScript(text), true, text);
  }
  for (const text of [
    "export {}", "export const a = 1", "export default a", "export default function () {}", "export * as a from 'b'",
    "import 'a'", "await a", "for await (const a of b);", "import.meta", "() => import.meta.url",
    "class A { [await a]() {} }", "({ async [await a]() {} })", "f(async () => {}, await a)",
  ]) {
    assert.equal(isScript(text), false, text);
  }
});

test("scripts that are no modules", () => {
  assert.deepEqual(dependencies(`return require("a"); `, "Cjs"), [{ kind: "require", argument: "a" }]);
  assert.deepEqual(dependencies(`return require("a"); `), [{ kind: "require", argument: "a" }]);
});

/**
 * The arguments, from the inside to the outside, of calls that nest.
 * @param {string} open
 * @param {string} close
 * @param {number} times
 */
function nestedCalls(open, close, times) {
  return answerOf(`${open.repeat(times)}require("a")${close.repeat(times)}`).dependencies
    .map((each) => each.argument);
}

test("calls inside one another", () => {
  for (const times of [10, 70]) {
    const unknown = Array(times).fill(undefined);
    assert.deepEqual(nestedCalls("require(", ")", times), ["a", ...unknown]);
    assert.deepEqual(nestedCalls("import(b, ", ")", times), ["a", ...unknown]);
    assert.deepEqual(nestedCalls("import(", ", { with: {} })", times), ["a", ...unknown]);
    const known = Array(times).fill([string("b"), EXPR]);
    assert.deepEqual(nestedCalls('require("b" + ', ")", times), ["a", ...known]);
    assert.deepEqual(nestedCalls("require(`b${", "}`)", times), ["a", ...known]);
  }
  const attributes = answerOf(
    `${'import("b", { with: { [c]: d, e: '.repeat(40)}require("a")${"} })".repeat(40)}`,
  ).dependencies.slice(1);
  assert.deepEqual(attributes.map((each) => each.importAttributes), Array(40).fill("unknown"));
});

test("calls beside one another in calls that nest stay in order", () => {
  /** @type {(times: number) => string} */
  const nested = (times) => `require(require("${times}a"), ${times > 0 ? nested(times - 1) : "b"}, require("${times}c"))`;
  /** @type {(times: number) => (string | undefined)[]} */
  const order = (times) => [
    `${times}a`, ...(times > 0 ? order(times - 1) : []), `${times}c`, undefined,
  ];
  const found = answerOf(nested(80)).dependencies.map(({ argument: known }) => known);
  assert.deepEqual(found, order(80));
});

test("what awaits nests as deep as it likes", () => {
  assert.equal(answerOf(`${"await (".repeat(100)}require("a")${")".repeat(100)}`).script, undefined);
  const inFunction = `async () => ${"await (".repeat(100)}require("a")${")".repeat(100)}`;
  assert.equal(answerOf(inFunction).script, true);
});

