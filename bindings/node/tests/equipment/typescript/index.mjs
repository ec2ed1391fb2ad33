/** Runs TypeScript's parser. */

import { loadParser } from "../installed_parsers.mjs";
import { shebangEnd } from "../shebang.mjs";
import { findComments } from "./comments.mjs";
import { estreeOf } from "./estree.mjs";
import { parseFile } from "./parse.mjs";

/**
 * A text's tree by ESTree, and its comments.
 * @param {string} text
 * @param {string} mediaType of code
 * @returns {{ tree: import("./estree.mjs").Estree, comments: any[] }}
 * @throws {SyntaxError}
 */
export function parseWithTypeScript(text, mediaType) {
  const compiler = loadParser("typescript");
  const file = parseFile(compiler, text, mediaType);
  return { tree: estreeOf(compiler, file), comments: findComments(compiler, file, text, shebangEnd(text)) };
}
