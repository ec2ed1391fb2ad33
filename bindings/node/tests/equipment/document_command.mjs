/** The commands of `modinfo` for many documents, as processes of the package's pool run them: for tests. */

import { ModinfoFault } from "../../modinfo/dist/core/errors.cjs";
import { unchecked } from "../unchecked.mjs";

/**
 * @typedef {import("../../modinfo-graph/dist/runtime/pool.js").Answer} Answer
 * @typedef {"analyze" | "analyze --estree" | "analyze --source" | "convert" | "reach"} CommandName
 */

const ANSWER = Buffer.from('{"answer":');
const LINE_FEED = 0x0a;
const CARRIAGE_RETURN = 0x0d;

/**
 * The command of documents, each a line.
 * @param {string} program the path of `modinfo`
 * @param {CommandName} name
 */
export function documentCommand(program, name) {
  return { program, words: [...name.split(" "), "--lines"], read: readAnswer };
}

/**
 * A document as a line. In JSON line feeds can only be white space, as carriage returns can.
 * @param {string | Uint8Array} document
 * @returns {string | Uint8Array} no bytes that the caller may change
 */
export function lineOf(document) {
  if (typeof document === "string") {
    return `${document.replaceAll("\n", "\r")}\n`;
  }
  const line = Buffer.concat([document, Buffer.of(LINE_FEED)]);
  for (let at = line.indexOf(LINE_FEED); at < document.length; at = line.indexOf(LINE_FEED, at)) {
    line[at] = CARRIAGE_RETURN;
  }
  return line;
}

/**
 * @param {Buffer} line `{"answer":..}` or `{"fault":".."}`
 * @returns {Answer | undefined}
 */
function readAnswer(line) {
  return beginsWith(line, ANSWER) ? { value: line.subarray(ANSWER.length, -1) } : readFault(line);
}

/** @param {Buffer} line @returns {Answer | undefined} */
function readFault(line) {
  const fault = parsed(line)?.fault;
  return typeof fault === "string" ? { error: ModinfoFault.of(unchecked(fault)) } : undefined;
}

/**
 * @param {Buffer} line
 * @param {Buffer} beginning
 */
function beginsWith(line, beginning) {
  return line.subarray(0, beginning.length).equals(beginning);
}

/** @param {Buffer} line @returns {any} nothing where it is no JSON */
function parsed(line) {
  try {
    return JSON.parse(line.toString());
  } catch {
    return undefined;
  }
}
