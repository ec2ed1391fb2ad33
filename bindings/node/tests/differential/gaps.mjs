/**
 * A comment of each kind in every gap between the tokens of each kind of dependency: the parser against acorn and
 * TypeScript, and against the trees of each parser of the tests of ESTree, which `analyze --estree` reads.
 *
 *     MODINFO=build/unchecked/modinfo node --test bindings/node/tests/differential/gaps.mjs
 */

import assert from "node:assert/strict";
import { test } from "node:test";

import { PARSERS, parsed } from "../estree_parsers.mjs";
import { Oracle } from "./oracle.mjs";
import { linesOfTexts, linesOfTrees } from "./program.mjs";

/**
 * Dependencies by media type, with a blank between two tokens.
 * @type {Record<string, string[]>}
 */
const DEPENDENCIES = {
  JavaScript: [
    "import \"x\" ;",
    "import a from \"x\" ;",
    "import * as a from \"x\" ;",
    "import { a as b , c , } from \"x\" ;",
    "import a , { b } from \"x\"",
    "import { } from \"x\"",
    "import \"x\" with { type : \"json\" , } ;",
    "import a from \"x\" assert { \"type\" : \"json\" }",
    "export * from \"x\" ;",
    "export * as a from \"x\" ;",
    "export { a as b } from \"x\" ;",
    "export { default } from \"x\" with { type : \"json\" } ;",
    "import ( \"x\" ) ;",
    "import ( \"x\" , { with : { type : \"json\" } } ) ;",
    "import ( \"x\" + a + \"y\" ) ;",
    "import ( `x${ a }y${ b }` ) ;",
    "import ( `x` ) ;",
    "require ( \"x\" ) ;",
    "require ( \"x\" ) . a ( ) ;",
    "a = require ( \"x\" , b ) ;",
    "await import ( \"x\" )",
    "import . meta . url ;",
    "new A ( import ( \"x\" ) )",
    "f ( a , require ( \"x\" ) )",
    "export default import ( \"x\" ) ;",
    "export const a = require ( \"x\" ) ;",
    "( require ( \"x\" ) )",
    "[ require ( \"x\" ) ]",
    "a => import ( \"x\" )",
    "`a${ require ( \"x\" ) }b`",
    "a ? require ( \"x\" ) : require ( \"y\" )",
    "class A { a = require ( \"x\" ) ; static { require ( \"y\" ) } }",
    "{ a : require ( \"x\" ) }",
    "! require ( \"x\" )",
    "a . b ?. c ( require ( \"x\" ) )",
    "a ++ ; require ( \"x\" )",
    "/a/g ; require ( \"x\" )",
    "1 , require ( \"x\" )",
    "\"a\" ; require ( \"x\" )",
    "if ( a ) require ( \"x\" ) ; else require ( \"y\" )",
    "for ( const a of require ( \"x\" ) ) require ( \"y\" )",
    "switch ( a ) { case require ( \"x\" ) : require ( \"y\" ) }",
    "function f ( ) { return require ( \"x\" ) }",
    "async function f ( ) { await require ( \"x\" ) }",
    "function * f ( ) { yield require ( \"x\" ) }",
    "typeof require ( \"x\" )",
    "do require ( \"x\" ) ; while ( require ( \"y\" ) )",
    "try { require ( \"x\" ) } catch ( e ) { require ( \"y\" ) } finally { require ( \"z\" ) }",
    "throw require ( \"x\" )",
    "a + require ( \"x\" )",
    "a - require ( \"x\" )",
    "a && require ( \"x\" )",
    "a in require ( \"x\" )",
    "a instanceof require ( \"x\" )",
    "a = b = require ( \"x\" )",
    "a += require ( \"x\" )",
    "- require ( \"x\" )",
    "~ require ( \"x\" )",
    "[ ... require ( \"x\" ) ]",
    "this , require ( \"x\" )",
    "debugger ; require ( \"x\" )",
    "class A { #a ; b ( ) { #a in require ( \"x\" ) } }",
    "@ a ( require ( \"x\" ) ) class B { }",
    "let a = require ( \"x\" )",
    "var a , b = require ( \"x\" )",
  ],
  TypeScript: [
    "import type a from \"x\" ;",
    "import type { a } from \"x\" ;",
    "import { type a } from \"x\" ;",
    "import a = require ( \"x\" ) ;",
    "export import a = require ( \"x\" ) ;",
    "import type a = require ( \"x\" ) ;",
    "export type { a } from \"x\" ;",
    "export type * from \"x\" ;",
    "export type * as a from \"x\" ;",
    "let a : import ( \"x\" ) ;",
    "let a : typeof import ( \"x\" ) . b < c > ;",
    "let a : import ( \"x\" , { with : { \"resolution-mode\" : \"import\" } } ) ;",
    "declare module \"x\" { }",
    "declare module \"x\" ;",
    "module \"x\" { import \"y\" ; }",
    "declare module \"x\" { import a from \"y\" ; export * from \"z\" ; }",
    "f < import ( \"x\" ) > ( )",
    "a as import ( \"x\" ) ;",
    "< import ( \"x\" ) > a ;",
    "type A = | import ( \"x\" ) | import ( \"y\" ) ;",
    "type A = B & import ( \"x\" ) ;",
    "function f ( a : import ( \"x\" ) , b ? : import ( \"y\" ) ) : import ( \"z\" ) { }",
    "interface A { a : import ( \"x\" ) ; b ( ) : import ( \"y\" ) }",
    "class A extends B < import ( \"x\" ) > { a : import ( \"y\" ) = require ( \"z\" ) }",
    "type A < T > = T extends import ( \"x\" ) ? import ( \"y\" ) : import ( \"z\" )",
    "( a : import ( \"x\" ) ) : import ( \"y\" ) => require ( \"z\" )",
    "let a : [ import ( \"x\" ) , ... import ( \"y\" ) [ ] ]",
    "a ! ; require ( \"x\" )",
    "enum A { B = require ( \"x\" ) }",
    "namespace A { require ( \"x\" ) }",
    "export = require ( \"x\" ) ;",
    "abstract class A { abstract a : import ( \"x\" ) }",
    "type A = `a${ import ( \"x\" ) }b`",
    "< T > ( a : T ) => require ( \"x\" )",
  ],
  Tsx: [
    "< a b = { require ( \"x\" ) } > { require ( \"y\" ) } </ a >",
    "< a /> ; require ( \"x\" )",
    "f ( < a > { require ( \"x\" ) } </ a > , require ( \"y\" ) )",
    "< > { require ( \"x\" ) } </ >",
    "< a { ... require ( \"x\" ) } b = \"c\" />",
  ],
};

/** What is put into a gap. */
const COMMENTS = [
  ` // @ts-types="./t.d.ts"\n`,
  ` /* @ts-types="./t.d.ts" */ `,
  ` /* @ts-types="./t.d.ts" */\n`,
  `\n/* @ts-types="./t.d.ts" */ `,
  `\n// @ts-types="./t.d.ts"\n`,
  ` /*\n*/ /* @deno-types="./t.d.ts" */ `,
  ` /* @ts-types="./t.d.ts" */ /* b */ `,
  ` // b\n/* @ts-types="./t.d.ts" */ `,
  ` /** @type {import("j")} */ `,
  `\n/** @import { J } from "j" */\n`,
];

/**
 * What the parsers read though a line may not end there.
 * @type {{ reason: string, text: RegExp }[]}
 */
const KNOWN = [
  { reason: "TypeScript reports a line end before `=>` later.", text: /\n(?:\*\/ )?(?:\/\*.*\*\/ |\/\/.*\n|)=>/ },
  { reason: "TypeScript reports an `await` in a function that isn't async later.", text: /^async[^]*\n[^]*function f \( \) \{ await/ },
  { reason: "TypeScript reports a line end after `throw` later.", text: /^throw[^]*\n[^]*require/ },
  { reason: "TypeScript reports nothing where `declare` isn't one.", text: /^declare module[^]*\n[^]*"x" ;/ },
];

/** Babel reads type arguments after a line end behind the name of a type of an import, TypeScript doesn't. */
const READ_BY_BABEL = /^let a : typeof import \( "x" \) \. b[^]*\n[^]*< c >/;

/** @param {string} dependency */
function textsOf(dependency) {
  const tokens = dependency.split(" ");
  return [...tokens, ""].flatMap((_, gap) => COMMENTS.map((comment) =>
    `${tokens.slice(0, gap).join(" ")}${comment}${tokens.slice(gap).join(" ")}`));
}

for (const [mediaType, dependencies] of Object.entries(DEPENDENCIES)) {
  test(`comments in ${mediaType}`, async () => {
    const oracle = new Oracle();
    const modules = dependencies.flatMap(textsOf).map((text) => ({ text, mediaType }));
    const lines = await linesOfTexts(modules);
    const different = [];
    for (const [at, module] of modules.entries()) {
      const expected = await oracle.lineOf(module);
      const isKnown = KNOWN.some(({ text }) => text.test(module.text));
      if (lines[at] !== expected && expected !== "Syntax" && !isKnown) {
        different.push({ ...module, expected, line: lines[at] });
      }
    }
    oracle.close();
    assert.deepEqual(different, []);
  });
}

for (const parser of PARSERS) {
  test(`comments in trees: ${parser.name}`, { skip: parser.skip }, async () => {
    const modules = Object.entries(DEPENDENCIES).flatMap(([mediaType, dependencies]) =>
      dependencies.flatMap(textsOf).map((text) => ({ text, mediaType })));
    const trees = modules.flatMap((module) => {
      const input = parsed(parser, module.text, module.mediaType);
      return input ? [{ module, ...input }] : [];
    });
    assert.ok(trees.length > 0);
    const found = await linesOfTrees(trees);
    const expected = await linesOfTexts(trees.map(({ module }) => module));
    const different = trees
      .map(({ module }, at) => ({ ...module, expected: expected[at], line: found[at] }))
      .filter(({ text, expected, line }) => line !== expected && !(expected === "Syntax" && READ_BY_BABEL.test(text)));
    assert.deepEqual(different, []);
  });
}
