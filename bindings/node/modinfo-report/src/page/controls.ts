/** Names of characters that are invisible, or that change how others are shown. */

const REST = "\\x0b-\\x1f\\x7f-\\x9f\\xad\\u061c\\u180e\\u200b\\u200e\\u200f" +
  "\\u2028-\\u202e\\u2060-\\u206f\\ufeff\\ufff9-\\ufffb";

/** Such characters in a text, where tabs and line feeds are visible. */
const IN_TEXT = new RegExp(`[\\0-\\x08${REST}]`, "u");

/** Such characters in a name. */
const IN_NAME = new RegExp(`[\\0-\\x0a${REST}]`, "u");

const NAMES = new Map([
  ["\r", "CR"], ["\n", "LF"], ["\t", "TAB"], ["\0", "NUL"], ["\x1b", "ESC"], ["\ufeff", "BOM"],
  ["\xad", "SHY"],
  ["\u2028", "LS"], ["\u2029", "PS"], ["\u200b", "ZWSP"], ["\x85", "NEL"],
]);

/** @returns its parts; a part with a name is one such character */
export const withControls = (text: string): { text: string, name?: string }[] => partsWith(text, IN_TEXT);

/** Like `withControls`, but tabs and line feeds in the name of a file or a folder have names. */
export const nameParts = (name: string): { text: string, name?: string }[] => partsWith(name, IN_NAME);

function partsWith(text: string, controls: RegExp) {
  const parts: { text: string, name?: string }[] = [];
  let rest = text;
  for (let at = rest.search(controls); at >= 0; at = rest.search(controls)) {
    if (at > 0) {
      parts.push({ text: rest.slice(0, at) });
    }
    parts.push({ text: rest[at], name: NAMES.get(rest[at]) ?? codeOf(rest[at]) });
    rest = rest.slice(at + 1);
  }
  return rest === "" ? parts : [...parts, { text: rest }];
}

function codeOf(character: string) {
  return `U+${character.charCodeAt(0).toString(16).toUpperCase().padStart(4, "0")}`;
}
