/** The parsers whose trees the tests of ESTree read. */

import { parseWithAcorn } from "./equipment/acorn.mjs";
import { loadParser } from "./equipment/installed_parsers.mjs";
import { parseWithTypeScript } from "./equipment/typescript/index.mjs";

/**
 * @typedef {{ tree: any, comments: any[] }} Parsed
 * @typedef {(text: string, mediaType: string) => Parsed} Parse throws a SyntaxError
 *
 * @typedef {object} Parser
 * @property {string} name
 * @property {string[]} mediaTypes that it reads
 * @property {Parse} parse
 * @property {string | false} skip why it can't run
 */

const acorn = loadParser("acorn");
const babel = loaded("@babel/parser");
/** Debian's espree finds its acorn where NODE_PATH is /usr/share/nodejs, or node is Debian's. */
const espree = loaded("espree");

/**
 * A parser that no other test needs, and the set-up doesn't install.
 * @param {string} name
 * @returns {any} nothing where it isn't installed
 */
function loaded(name) {
  try {
    return loadParser(/** @type {any} */ (name));
  } catch {
    return undefined;
  }
}

/**
 * Parses a text as a module, and if that fails as a script.
 * @param {(sourceType: string) => Parsed} parse
 * @returns {Parsed}
 */
function asEither(parse) {
  try {
    return parse("module");
  } catch (error) {
    if (!(error instanceof SyntaxError)) {
      throw error;
    }
    return parse("script");
  }
}

/** @type {Parse} */
function withAcorn(text) {
  return asEither((sourceType) => {
    /** @type {any[]} */
    const comments = [];
    const options = { ecmaVersion: "latest", sourceType, onComment: comments, allowHashBang: true };
    return { tree: acorn.parse(text, options), comments };
  });
}

/** @type {Parse} */
function withEspree(text) {
  return asEither((sourceType) => {
    const options = { ecmaVersion: "latest", sourceType, comment: true, range: true, loc: true, tokens: true };
    const tree = espree.parse(text, { ...options, ecmaFeatures: { jsx: true } });
    return { tree, comments: tree.comments };
  });
}

/**
 * The plugins of Babel for a media type.
 * @param {string} mediaType
 */
function languages(mediaType) {
  const typescript = ["typescript", { dts: mediaType.startsWith("D") }];
  if (mediaType === "Tsx") {
    return [typescript, "jsx"];
  }
  return TYPESCRIPT.includes(mediaType) ? [typescript] : ["jsx"];
}

/**
 * @param {string[]} own plugins
 * @param {object} [options]
 * @returns {Parse}
 */
function withBabel(own, options) {
  return (text, mediaType) => asEither((sourceType) => {
    const plugins = [...own, ...languages(mediaType), "importAssertions", "decorators-legacy"];
    const tree = babel.parse(text, { sourceType, plugins, ...options });
    return { tree, comments: tree.comments };
  });
}

const JAVASCRIPT = ["JavaScript", "Jsx", "Mjs", "Cjs"];
const TYPESCRIPT = ["TypeScript", "Mts", "Cts", "Dts", "Dmts", "Dcts", "Tsx"];
export const noBabel = !babel && "@babel/parser isn't installed";
const noEspree = !espree && "espree isn't installed, or finds no acorn";

/**
 * With import attributes, as both keywords have them.
 * @type {Parser}
 */
export const ACORN = {
  name: "acorn with nodes for parentheses and attributes", mediaTypes: JAVASCRIPT, parse: parseWithAcorn, skip: false,
};

/** @type {Parser} */
export const TYPESCRIPT_PARSER = {
  name: "TypeScript", mediaTypes: [...JAVASCRIPT, ...TYPESCRIPT], parse: parseWithTypeScript, skip: false,
};

/** @type {Parser[]} */
export const PARSERS = [
  ACORN,
  { name: "acorn without nodes for parentheses", mediaTypes: JAVASCRIPT, parse: withAcorn, skip: false },
  { name: "espree", mediaTypes: JAVASCRIPT, parse: withEspree, skip: noEspree },
  {
    name: "Babel with its plugin estree",
    mediaTypes: [...JAVASCRIPT, ...TYPESCRIPT],
    parse: withBabel(["estree"]),
    skip: noBabel,
  },
  {
    name: "Babel with nodes for parentheses",
    mediaTypes: ["JavaScript"],
    parse: withBabel(["estree"], { createParenthesizedExpressions: true }),
    skip: noBabel,
  },
  {
    name: "Babel with its own nodes",
    mediaTypes: [...JAVASCRIPT, ...TYPESCRIPT],
    parse: withBabel([]),
    skip: noBabel,
  },
];

/**
 * A text as a parser reads it; nothing where the parser can't run, has not its media type, or finds a syntax error.
 * @param {Parser} parser
 * @param {string} text
 * @param {string} mediaType
 * @returns {Parsed | undefined}
 */
export function parsed({ mediaTypes, parse, skip }, text, mediaType) {
  if (skip || !mediaTypes.includes(mediaType)) {
    return undefined;
  }
  try {
    return parse(text, mediaType);
  } catch (error) {
    if (error instanceof SyntaxError) {
      return undefined;
    }
    throw error;
  }
}
