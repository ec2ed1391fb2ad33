/** The `#!` line of a text, which not every parser takes. */

/** A byte order mark may be before it; that stays a part of the text. */
const SHEBANG = /^\uFEFF?#!.*/u;

/**
 * The offset after the `#!` line, or 0 where there is none.
 * @param {string} text
 */
export function shebangEnd(text) {
  return SHEBANG.exec(text)?.[0].length ?? 0;
}

/**
 * The text with spaces in place of the line.
 * @param {string} text
 */
export function withoutShebang(text) {
  const end = shebangEnd(text);
  return " ".repeat(end) + text.slice(end);
}
