/**
 * Finds the comments of a text by TypeScript's tree, which has none.
 *
 * @typedef {import("./parse.mjs").Node} Node
 * @typedef {import("./parse.mjs").Compiler} Compiler
 */

/** Tokens of free text, in which what looks like a comment is none. */
const TEXTS = [
  "StringLiteral", "NoSubstitutionTemplateLiteral", "TemplateHead", "TemplateMiddle", "TemplateTail", "JsxText",
  "RegularExpressionLiteral",
];
const STAR = 0x2a;
const OPENING = /\/[/*]/g;
const LINE_BREAK = /[\n\r\u2028\u2029]/g;

/**
 * The comments: what looks like one, but for what is in another, or in a token of free text.
 * @param {Compiler} compiler
 * @param {Node} file
 * @param {string} text
 * @param {number} from
 * @returns {{ start: number, end: number }[]} in the order of the source
 */
export function findComments(compiler, file, text, from) {
  const tokens = textsOf(compiler, file);
  const found = [];
  let at = 0;
  for (let start = nextSlash(text, from); start >= 0;) {
    while (at < tokens.length && tokens[at].end <= start) {
      at++;
    }
    const isInText = at < tokens.length && tokens[at].start <= start;
    const end = isInText ? tokens[at].end : commentEnd(text, start);
    if (!isInText && end >= 0) {
      found.push({ start, end });
    }
    start = nextSlash(text, Math.max(end, start + 1));
  }
  return found;
}

/**
 * The ranges of the tokens of free text, in the order of the source.
 * @param {Compiler} compiler
 * @param {Node} file
 */
function textsOf(compiler, file) {
  const kinds = new Set(TEXTS.map((name) => compiler.SyntaxKind[name]));
  const todo = [file];
  const push = (/** @type {Node} */ child) => {
    todo.push(child);
  };
  const found = [];
  while (todo.length > 0) {
    const node = todo.pop();
    if (kinds.has(node.kind)) {
      const isFromWhiteSpaceOn = node.kind === compiler.SyntaxKind.JsxText;
      found.push({ start: isFromWhiteSpaceOn ? node.pos : node.getStart(file, false), end: node.end });
    }
    compiler.forEachChild(node, push);
  }
  return found.sort((one, other) => one.start - other.start);
}

/**
 * Where something next looks like the beginning of a comment.
 * @param {string} text
 * @param {number} from
 * @returns {number} below 0 where nothing does
 */
function nextSlash(text, from) {
  OPENING.lastIndex = from;
  return OPENING.exec(text)?.index ?? -1;
}

/**
 * @param {string} text
 * @param {number} start
 * @returns {number} below 0 where nothing closes it
 */
function commentEnd(text, start) {
  if (isBlock(text, start)) {
    const close = text.indexOf("*/", start + 2);
    return close < 0 ? close : close + 2;
  }
  LINE_BREAK.lastIndex = start;
  return LINE_BREAK.exec(text)?.index ?? text.length;
}

/**
 * @param {string} text
 * @param {number} start
 */
function isBlock(text, start) {
  return text.charCodeAt(start + 1) === STAR;
}
