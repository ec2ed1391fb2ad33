/**
 * What may name modules at run time, found in a text by a search: calls and tags, of which a comment or a
 * string that looks like one counts too; and string literals, between two quotes of a line, that look like a
 * file's name or a glob.
 */

import { isModule, withoutEnding } from "../files/file_kinds.js";
import type { ReasonKind } from "./graph.cjs";

export type Parts = (string | undefined)[];

/**
 * What the parts of a reference name: a module (one of several in a list), all modules of a folder, those
 * that a glob matches, a module by a name of AMD; or what a string literal does, which may be a glob.
 */
type Form = "name" | "list" | "folder" | "glob" | "amd" | "literal" | "literal glob";

/**
 * A string literal, a call or a tag that may name modules. With `isFile` a name without a dot at its
 * beginning is a path; `offset` is that of the call, or of a literal's first quote, in UTF-16 code units.
 */
export type LooseReference = { kind: ReasonKind, parts: Parts, form: Form, isFile?: boolean, offset: number };
export const LONGEST_TEXT = 2 ** 22;
const LITERAL = /(["'`])((?=[^"'`\n]{0,300}[/*])(?!\s)[^"'`\n\\]{1,300})\1/g;
const WILDCARD = /[*?[]|\{[^{}]*,|[@+!]\(/;
const RELATIVE = /^(?:\.{1,2}\/|<rootDir>\/)/;
const LETTER = /[\p{L}\p{N}]/u;
/** Beginnings of groups of a glob, as `@(a|b)`, and classes of single characters, as `[jt]`. */
const GROUP = /([@?+*!])\(([^()]*)\)|\[(\w+)\]/g;

export function literalsOf(text: string): LooseReference[] {
  const found = text.length <= LONGEST_TEXT ? [...text.matchAll(LITERAL)] : [];
  return found.flatMap(({ 1: quote, 2: content, index }) => literalOf(content, quote, index));
}

/** @returns nothing where it looks like no name of a file */
export function literalOf(content: string, quote: string = "", offset: number = 0): LooseReference | [] {
  const parts = quote === "`" ? templateParts(content) : [content];
  const isGlob = parts.length === 1 && WILDCARD.test(content);
  const isMeant = isGlob ? hasFixedName(content) : isFileName(parts);
  return isMeant ? { kind: "text", parts, form: isGlob ? "literal glob" : "literal", offset } : [];
}

export function templateParts(template: string): Parts {
  return template.split(/\$\{[^}]*\}/).flatMap((each, at) => (at > 0 ? [undefined, each] : [each]));
}

/**
 * Whether a text begins with `./` or `../`, or has a slash and the ending of a module. Of a template, a
 * folder and the ending are known too.
 */
function isFileName([first = "", ...others]: Parts) {
  const last = others.at(-1);
  return others.length === 0
    ? RELATIVE.test(first) || (first.includes("/") && isModule(first))
    : RELATIVE.test(first) && /\w\/|[\w-]$/.test(first) && last !== undefined && isModule(`a${last}`);
}

/** Whether the last name of a glob has a part that is fixed, besides its ending: `*.stories.tsx` has one. */
function hasFixedName(glob: string) {
  const last = plainGlob(glob).replace(/\/+$/, "").split("/").pop() ?? "";
  const name = isModule(last) ? withoutEnding(last) : last.replace(/\.[^.]*$/, "");
  // Of alternatives each one has a fixed part.
  const fixed = name.replace(/\{([^{}]*)\}/g, (_, group) => {
    const all: string[] = group.split(",");
    return all.every((each) => LETTER.test(each)) ? all[0] : "";
  });
  return !glob.startsWith("!") && LETTER.test(fixed.replace(/\[[^\]]*\]/g, ""));
}

/** @returns the glob with braces in place of groups and classes */
export function plainGlob(glob: string): string {
  return glob.replace(GROUP, (_, mark, group, letters) => {
    const all = letters === undefined ? group.split("|") : [...letters];
    const isLost = mark === "!" || (mark !== undefined && /[{}]/.test(group));
    return isLost ? "*" : `{${["?", "*"].includes(mark) ? "," : ""}${all.join(",")}}`;
  });
}

/** A comment, an operand or its end, a slash, or anything else. */
const TOKEN = new RegExp([
  String.raw`(\/\/[^\n]*|\/\*[^]*?(?:\*\/|$))`,
  String.raw`("(?:[^"\\\n]|\\[^])*"|'(?:[^'\\\n]|\\[^])*'|\x60(?:[^\x60\\]|\\[^])*\x60|[\w$\x80-\uffff]+|[)\]}])`,
  String.raw`(\/)`, String.raw`\s+|[^]`,
].join("|"), "g");
const REGULAR_EXPRESSION = /\/(?:[^/\\\n[]|\\.|\[(?:[^\]\\\n]|\\.){0,999}\]){1,999}\/[a-z]*/y;
const BEFORE_OPERAND = /^(?:return|typeof|case|in|of|do|else|void|delete|throw|new|instanceof|await|yield)$/;

/** Whether an offset of JavaScript is in a comment. A text in quotes and a regular expression have none. */
export function commentsOf(text: string): (offset: number) => boolean {
  const isInComment = new Uint8Array(text.length);
  let isOperand = false;
  TOKEN.lastIndex = 0;
  for (let token = TOKEN.exec(text); token; token = TOKEN.exec(text)) {
    const [whole, comment, operand, slash] = token;
    if (comment !== undefined) {
      isInComment.fill(1, token.index, TOKEN.lastIndex);
    } else if (slash !== undefined && !isOperand) {
      REGULAR_EXPRESSION.lastIndex = token.index;
      TOKEN.lastIndex = REGULAR_EXPRESSION.test(text) ? REGULAR_EXPRESSION.lastIndex : TOKEN.lastIndex;
      isOperand = true;
    } else if (/\S/.test(whole)) {
      isOperand = operand !== undefined && !BEFORE_OPERAND.test(operand);
    }
  }
  return (offset) => isInComment[offset] === 1;
}

/** What a call names; `isEnded` if names count that have the ending of a module. */
type What = Pick<LooseReference, "kind" | "isFile"> & { form?: Form, isEnded?: boolean };
/** The most characters of the argument of a call, and the most parts. */
const NEAR = 300;
const MOST_PARTS = 20;
/** Beginnings of calls: of a member of `import.meta`, of functions that mock modules, of those that load AMD's. */
const META = String.raw`\bimport\s*\.\s*meta\s*\.\s*`;
const MOCKS = String.raw`\b(?:jest|vi|vitest)\s*\.\s*(?:(?:do)?[mM]ock|(?:require|import)(?:Actual|Mock))`;
const AMD = String.raw`\b(?:define|require|requirejs)\s*\(\s*`;
/** The parenthesis of a call, with type arguments before. */
const TYPED_CALL = String.raw`\s*(?:<[^;]{0,100}?>\s*)?\(`;

const pattern = (...parts: string[]) => new RegExp(parts.join(""), "g");
const CALLS: [call: RegExp, what: What][] = [
  [/\bnew\s+URL\s*\(/g, { kind: "new URL", isFile: true }],
  [/\bnew\s+(?:Shared)?Worker\s*\(/g, { kind: "new Worker", isFile: true }],
  [/\brequire\s*\.\s*resolve\s*\(/g, { kind: "require.resolve" }],
  [pattern(META, String.raw`resolve\s*\(`), { kind: "import.meta.resolve" }],
  [pattern(META, "glob(?:Eager)?", TYPED_CALL, "\\s*\\[?"), { kind: "import.meta.glob", form: "glob" }],
  [/\brequire\s*\.\s*context\s*\(/g, { kind: "require.context", form: "folder", isFile: true }],
  [pattern(MOCKS, TYPED_CALL), { kind: "jest.mock" }],
  [pattern(`(?:\\b__dirname|${META}dirname)\\s*[,+]`), { kind: "__dirname", isFile: true }],
  [/\b(?:fork|addModule|register)\s*\(/g, { kind: "text", isFile: true, isEnded: true }],
  [/\bimportScripts\s*\(/g, { kind: "text", form: "list", isFile: true, isEnded: true }],
  [pattern(AMD, String.raw`(?:["'][\w./-]{1,100}["']\s*,\s*)?\[`), { kind: "text", form: "amd" }],
];

/** What leads to a module in a text that isn't parsed. A group is a name without quotes. */
const IMPORTS = [
  /\bfrom\s*(?=["'])/g, /\bimport\s*(?=["'])/g, /\b(?:import|require)\s*\(/g,
  /<script\b[^<>]{0,1000}?\bsrc\s*=\s*(?:(?=["'])|([^\s"'>][^\s>]{0,300}))/gi,
];

/** Whether a text may have any of the calls: most have none. */
const ANY_CALL = new RegExp([
  String.raw`\b(?:URL|Worker|SharedWorker|meta|resolve|context|jest|vi|vitest|__dirname|fork|addModule)\b`,
  String.raw`\b(?:register|importScripts|define|requirejs|require-(?:dir|directory|all))\b|\brequire\s*\(\s*\[`,
].join("|"));

export function looseCalls(text: string): LooseReference[] {
  return text.length <= LONGEST_TEXT && ANY_CALL.test(text)
    ? [...CALLS.flatMap(([call, what]) => referencesAfter(text, call, what)), ...foldersLoaded(text)]
    : [];
}

/** @returns the imports and the calls of a text that wasn't parsed: of a page or a component, or with a fault */
export function looseImports(text: string, kind: ReasonKind): LooseReference[] {
  const searched = text.length <= LONGEST_TEXT ? IMPORTS : [];
  return [...searched.flatMap((each) => referencesAfter(text, each, { kind })), ...looseCalls(text)];
}

function referencesAfter(text: string, call: RegExp, { kind, form = "name", isFile, isEnded }: What) {
  const hasList = ["glob", "amd", "list"].includes(form);
  const isKnown = (parts: Parts) => {
    return parts.some((each) => each !== undefined) && (!isEnded || isModule(parts.at(-1) ?? ""));
  };
  return [...text.matchAll(call)].flatMap(({ 0: { length }, 1: unquoted, index: offset = 0 }) => {
    const end = offset + length;
    const names = hasList ? listAt(text, end) : [unquoted === undefined ? partsAt(text, end) : [unquoted]];
    return names.filter(isKnown).map((parts) => ({ kind, parts, form, isFile, offset }));
  });
}

function listAt(text: string, start: number): string[][] {
  const near = text.slice(start, start + 4 * NEAR);
  const [list] = /^(?:\s*(?:"[^"\n]*"|'[^'\n]*'|`[^`\n]*`)\s*,?)*/.exec(near) ?? [""];
  return [...list.matchAll(/"([^"]*)"|'([^']*)'|`([^`]*)`/g)].map(([, ...found]) => [found.join("")]);
}

/** A comment or blanks, a string, a template, or an operand that isn't known and then its `+` or `,`. */
const PART = /\s+|\/\*[^]*?\*\/|"((?:[^"\\\n]|\\.)*)"|'((?:[^'\\\n]|\\.)*)'|`((?:[^`\\]|\\.)*)`|[+,]|[\w$.]+/y;

/** The parts of the argument after a parenthesis; strings that follow `__dirname` by commas are parts too. */
function partsAt(text: string, start: number): Parts {
  const near = text.slice(start, start + NEAR);
  const isPath = [",", "+"].includes(text[start - 1]);
  const parts: Parts = [];
  let last = "";
  PART.lastIndex = 0;
  for (let found = PART.exec(near); found; found = PART.exec(near)) {
    const [whole, double, single, template] = found;
    if (/^[\s/]/.test(whole)) {
      continue;
    }
    // An operand after another one is no part of the name.
    const isOther = last !== "" && ![last, whole].some((each) => each === "+" || each === ",");
    if ((whole === "," && !isPath) || isOther || parts.length === MOST_PARTS) {
      break;
    }
    last = whole;
    const part = whole === "," ? "/" : double ?? single;
    parts.push(...template !== undefined ? templateParts(template) : whole === "+" ? [] : [part]);
  }
  return [...parts, ...(last === "+" ? [undefined] : [])].filter((each) => each !== "");
}

/** Packages whose calls load all modules of a folder. */
const LOADERS = "(?:require-dir|require-directory|require-all)";
const ANY_LOADER = new RegExp(`${LOADERS}["']`);
/** A `require` of such a package, and the name that it or an import has. */
const REQUIRED = String.raw`require\s*\(\s*["']${LOADERS}["']\s*\)`;
const NAMED = new RegExp([
  String.raw`([\w$]+)\s*=\s*${REQUIRED}`,
  String.raw`import\s+(?:\*\s*as\s+)?([\w$]+)\s+from\s*["']${LOADERS}["']`,
].join("|"), "g");

const ARGUMENTS = String.raw`\s*\(([^()]{0,300}(?:\([^()]{0,300}\))?)`;
const FIRST_STRING = /"([^"\n]*)"|'([^'\n]*)'/;
const MOST_NAMES = 20;

/** The folders of which all modules are loaded; without a name the folder of the text itself. */
function foldersLoaded(text: string): LooseReference[] {
  if (!ANY_LOADER.test(text)) {
    return [];
  }
  const names = [...text.matchAll(NAMED)].slice(0, MOST_NAMES).map(([, first, second]) => first ?? second);
  const called = names.map((name) => String.raw`(?<![\w$.])${name.replace(/\$/g, "\\$")}`);
  const calls = text.matchAll(pattern(`(?:${[REQUIRED, ...called].join("|")})${ARGUMENTS}`));
  return [...calls].map(({ 1: given, index: offset = 0 }) => {
    const [, first, second] = FIRST_STRING.exec(given) ?? [];
    const name = (first ?? second ?? "").replace(/^\/+/, "");
    return { kind: "require.context", parts: [`./${name}`], form: "folder", isFile: true, offset };
  });
}
