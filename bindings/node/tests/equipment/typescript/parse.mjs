/** Runs TypeScript's parser. */

import { endingOf } from "../media_types.mjs";
import { withoutShebang } from "../shebang.mjs";

/**
 * @typedef {any} Node a node of TypeScript's; its members differ from version to version
 * @typedef {any} Compiler the module `typescript`
 */

/**
 * The parser's errors about comments that begin with `///`: an invalid reference, a resolution mode
 * that is none, a second name of an AMD module.
 */
const OF_COMMENTS = new Set([1084, 1453, 2458]);

/**
 * @param {Compiler} compiler
 * @param {string} source
 * @param {string} mediaType
 * @returns {Node} the `SourceFile`
 * @throws {SyntaxError} the first error
 */
export function parseFile(compiler, source, mediaType) {
  const text = withoutShebang(source);
  const file = parseText(compiler, text, mediaType);
  const errors = syntaxErrors(file);
  if (errors.length === 0) {
    return file;
  }
  const older = withOlderKeyword(text, errors);
  const again = older === text ? file : parseText(compiler, older, mediaType);
  const [first] = syntaxErrors(again);
  if (first) {
    throw new SyntaxError(compiler.flattenDiagnosticMessageText(first.messageText, " "));
  }
  return again;
}

/**
 * As a module, in which `await` is a keyword; where that doesn't parse and a script may, as one.
 * @param {Compiler} compiler
 * @param {string} text
 * @param {string} mediaType
 * @returns {Node}
 */
function parseText(compiler, text, mediaType) {
  const asModule = parseAs(compiler, text, mediaType, true);
  if (isSound(asModule) || mediaType === "Mjs" || mediaType === "Mts") {
    return asModule;
  }
  const asFound = parseAs(compiler, text, mediaType, false);
  return isSound(asFound) ? asFound : asModule;
}

/**
 * @param {Compiler} compiler
 * @param {string} text
 * @param {string} mediaType
 * @param {boolean} asModule
 * @returns {Node}
 */
function parseAs(compiler, text, mediaType, asModule) {
  const ending = endingOf(mediaType) ?? "";
  const options = {
    languageVersion: compiler.ScriptTarget.Latest,
    jsDocParsingMode: compiler.JSDocParsingMode?.ParseNone,
    ...(asModule && { setExternalModuleIndicator: markAsModule }),
  };
  const kind = compiler.ScriptKind[scriptKindOf(ending)];
  return withoutRemains(compiler, compiler.createSourceFile(`module${ending}`, text, options, false, kind));
}

/**
 * TypeScript's name of the syntax of files whose names end so. A name also decides what is a
 * declaration file.
 * @param {string} ending
 */
function scriptKindOf(ending) {
  const syntax = ending.includes("ts") ? "TS" : "JS";
  return ending.endsWith("x") ? `${syntax}X` : syntax;
}

/**
 * TypeScript takes an `await` outside of every function for a name at first, and parses a module's
 * statements with one a second time. Where such a statement then takes in several of the first
 * time's, it leaves as many after the last statement, with their errors.
 * @param {Compiler} compiler
 * @param {Node} file
 * @returns {Node} the file, where it is so, with all after the first `await` parsed twice
 */
function withoutRemains(compiler, file) {
  if (firstRemain(file) < 0) {
    return file;
  }
  const { fileName, languageVersion, scriptKind, text } = file;
  const awaits = compiler.TransformFlags?.ContainsPossibleTopLevelAwait ?? 0;
  const setExternalModuleIndicator = (/** @type {Node} */ module) => {
    markAsModule(module);
    /** @type {Node[]} */
    const statements = module.statements;
    const first = statements.findIndex(({ transformFlags }) => transformFlags & awaits);
    statements.slice(first).forEach((each) => (each.transformFlags |= awaits));
  };
  const options = { languageVersion, setExternalModuleIndicator };
  const again = compiler.createSourceFile(fileName, text, options, false, scriptKind);
  const remain = firstRemain(again);
  // A version may have no such flag. Then valid texts may be refused, for errors that were left.
  const statements = remain < 0 ? again.statements : again.statements.slice(0, remain);
  return Object.create(again, { statements: { value: statements } });
}

/**
 * @param {{ statements: Node[] }} file
 * @returns {number} the index of the first statement that was left, below 0 where there is none
 */
function firstRemain({ statements }) {
  return statements.findIndex(({ pos }, at) => at > 0 && pos < statements[at - 1].end);
}

/** @param {Node} file */
function markAsModule(file) {
  file.externalModuleIndicator = true;
}

/** @param {Node} file */
function isSound(file) {
  return syntaxErrors(file).length === 0;
}

/**
 * @typedef {{ code: number, start: number, messageText: unknown }} Diagnostic
 *
 * @param {{ parseDiagnostics?: Diagnostic[] }} file
 * @returns {Diagnostic[]}
 */
function syntaxErrors({ parseDiagnostics = [] }) {
  return parseDiagnostics.filter(({ code }) => !OF_COMMENTS.has(code));
}

/**
 * The text with `assert` for each `with` that is an error, in as many characters: TypeScript before
 * 5.3 knows clauses of attributes by that keyword alone. Where there are no blanks around `with`, there
 * is no room.
 * @param {string} text
 * @param {{ start: number }[]} errors
 */
function withOlderKeyword(text, errors) {
  let older = text;
  for (const { start } of errors) {
    const [room, colon] = /^[ \t]with(:?)[ \t]/.exec(text.slice(start - 1, start + 6)) ?? [];
    if (room) {
      older = `${older.slice(0, start - 1)}assert${colon}${older.slice(start - 1 + room.length)}`;
    }
  }
  return older;
}
