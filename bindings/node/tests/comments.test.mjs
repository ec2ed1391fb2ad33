/** What the program reads of comments. */

import assert from "node:assert/strict";
import { test } from "node:test";

import { answerOf, typescriptAnswer } from "./documents.mjs";

test("the head's comments", () => {
  const text = `#!/usr/bin/env -S deno run\n/// <reference path="./ref.d.ts" />\n/* @jsxImportSource preact */\nexport {};\n`;
  assert.deepEqual(typescriptAnswer(text, "Tsx"), {
    tsReferences: [{ type: "path", text: "./ref.d.ts", range: [[1, 20], [1, 32]] }],
    jsxImportSource: { text: "preact", range: [[2, 20], [2, 26]] },
  });
  assert.deepEqual(typescriptAnswer(`#!/x\n/// <reference types="n" />`), {
    script: true,
    tsReferences: [{ type: "types", text: "n", range: [[1, 21], [1, 24]] }],
  });
  assert.deepEqual(answerOf(`// @ts-self-types="./a.d.ts"`), {
    script: true,
    selfTypesSpecifier: { text: "./a.d.ts", range: [[0, 18], [0, 28]] },
  });
  assert.equal(answerOf(`// @ts-self-types="./a.d.ts"\nx`).selfTypesSpecifier.text, "./a.d.ts");
});

test("the tail's comments", () => {
  /** @param {string} text */
  const map = (text) => answerOf(text).sourceMapUrl?.text;
  assert.equal(map("x;\n\n\n\n//# sourceMappingURL=a.map\n// b"), "a.map");
  assert.equal(map("x; //# sourceMappingURL=a.map"), "a.map");
  assert.equal(map("x() /*# sourceMappingURL=a.map */ // b\n"), "a.map");
  assert.equal(map("//# sourceMappingURL=a.map\nx"), undefined);
});

test("a dependency's types", () => {
  /** @param {string} text */
  const types = (text) => answerOf(text).dependencies.map(({ typesSpecifier }) => typesSpecifier?.text);
  assert.deepEqual(types(`// @deno-types="a"\nimport "b"; // @ts-types="c"\nimport "d";`), ["a", undefined]);
  assert.deepEqual(types(`x = /* @ts-types="a" */ require("b");\nx = await /* @ts-types="c" */ import("d");`), ["a", "c"]);
  assert.deepEqual(types(`x = // @ts-types="a"\nrequire("b")`), [undefined]);
});
