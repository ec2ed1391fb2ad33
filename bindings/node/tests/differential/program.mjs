/**
 * Runs the program that is tried, `modinfo`: over files by `files`, over texts by `analyze --source --lines`, over
 * trees of parsers by `analyze --estree --lines`.
 */

import { spawn } from "node:child_process";
import { text } from "node:stream/consumers";

import { MODINFO } from "../run_commands.mjs";

/** The name of the fault of a text with a syntax error. */
export const SYNTAX = "Syntax";

/** @typedef {{ text: string, mediaType: string }} Module */

/**
 * What the program prints for files.
 * @param {string[]} paths without line ends
 * @returns {Promise<string[]>} for each the JSON of its information, or the name of a fault
 * @throws {Error} the program ended before the last file
 */
export async function linesOfFiles(paths) {
  return (await printed(["files"], paths)).map((line) => resultOf(line, /^\{"specifier":"(?:[^"\\]|\\.)*","info":/));
}

/**
 * What the program prints for texts.
 * @param {Module[]} modules
 * @returns {Promise<string[]>} for each the JSON of its information, or the name of a fault
 * @throws {Error} the program ended before the last text
 */
export async function linesOfTexts(modules) {
  const documents = modules.map(({ text: source, mediaType }) =>
    JSON.stringify({ specifier: "file:///a", source, mediaType }));
  return (await printed(["analyze", "--source", "--lines"], documents)).map((line) => resultOf(line, /^\{"answer":/));
}

/**
 * What the program prints for the trees of a parser.
 * @param {{ module: Module, tree: object, comments: object[] }[]} trees
 * @returns {Promise<string[]>} for each the JSON of its information, or the name of a fault
 * @throws {Error} the program ended before the last tree
 */
export async function linesOfTrees(trees) {
  const documents = trees.map(({ module: { text: source, mediaType }, tree, comments }) => {
    const document = { specifier: "file:///a", source, mediaType, program: tree, comments };
    return JSON.stringify(document, (_, value) => (typeof value === "bigint" ? null : value));
  });
  return (await printed(["analyze", "--estree", "--lines"], documents)).map((line) => resultOf(line, /^\{"answer":/));
}

/**
 * The lines that the program prints, one for each line of its input.
 * @param {string[]} words
 * @param {string[]} input
 */
async function printed(words, input) {
  const child = spawn(MODINFO, words, { stdio: ["pipe", "pipe", "inherit"] });
  child.stdin.on("error", () => {}); // It is closed where the program ends early, which the number of lines shows.
  child.stdin.end(input.map((line) => `${line}\n`).join(""));
  const lines = (await text(child.stdout)).split("\n").slice(0, -1);
  if (lines.length !== input.length) {
    throw new Error(`the program ended at ${input[lines.length]}`);
  }
  return lines;
}

/**
 * The bytes of a result in a line, or the name of the line's fault.
 * @param {string} line
 * @param {RegExp} front what is before a result
 */
function resultOf(line, front) {
  const found = front.exec(line);
  if (found) {
    return line.slice(found[0].length, -1);
  }
  const { fault } = JSON.parse(line);
  return String(fault.name ?? fault);
}
