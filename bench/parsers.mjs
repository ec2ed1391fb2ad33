/**
 * Reads files and parses each by one parser, for bench/texts.py.
 *
 *     node bench/parsers.mjs PARSER < LIST
 *
 * LIST has a path on each line. Prints how many files the parser refuses.
 */

import { readFileSync } from "node:fs";
import { createRequire } from "node:module";
import { extname } from "node:path";

const require = createRequire(import.meta.url);
/** Where Debian's packages are. */
const FOLDER = "/usr/share/nodejs";
const TYPED = new Set([".ts", ".mts", ".cts", ".tsx"]);

/**
 * What each parser does with a text.
 * @type {Record<string, () => Promise<(text: string, path: string) => unknown>>}
 */
const PARSERS = {
  "acorn": async () => {
    const { parse } = require(`${FOLDER}/acorn`);
    const options = { ecmaVersion: "latest", allowHashBang: true };
    return (text) => eitherGoal((sourceType) => parse(text, { ...options, sourceType, onComment: [] }));
  },
  "TypeScript": async () => {
    const { createSourceFile, ScriptTarget } = require(`${FOLDER}/typescript`);
    return (text, path) => createSourceFile(path, text, ScriptTarget.Latest, false);
  },
  "Babel": async () => {
    const { parse } = require(`${FOLDER}/@babel/parser`);
    return (text, path) => {
      const language = TYPED.has(extname(path)) ? ["typescript", { dts: path.endsWith(".d.ts") }] : "jsx";
      return eitherGoal((sourceType) => parse(text, { sourceType, plugins: [language, "decorators-legacy"] }));
    };
  },
  "es-module-lexer": async () => {
    const { init, parse } = require(`${FOLDER}/es-module-lexer/dist/lexer.cjs`);
    await init;
    return parse;
  },
};

/** @param {(sourceType: string) => unknown} parse */
function eitherGoal(parse) {
  try {
    return parse("module");
  } catch {
    return parse("script");
  }
}

const read = await PARSERS[process.argv[2]]();
let refused = 0;
for (const path of readFileSync(0, "utf8").split("\n").filter(Boolean)) {
  try {
    read(readFileSync(path, "utf8"), path);
  } catch {
    refused++;
  }
}
console.log(refused);
