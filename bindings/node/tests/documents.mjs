/** What the program prints of documents and of texts, for tests. */

import assert from "node:assert/strict";
import { spawnSync } from "node:child_process";

import { estreeDocument } from "../modinfo/dist/index.js";
import { fault, readSchema } from "./schema.mjs";
import { MODINFO } from "./run_commands.mjs";
import { unchecked } from "./unchecked.mjs";

/** @typedef {import("./any_kind.mjs").AnyInfo} AnyInfo */

const schema = readSchema("module-info");

/**
 * What `modinfo analyze` prints, which keeps the schema.
 * @param {string[]} words
 * @param {string} document JSON
 * @returns {AnyInfo}
 */
function infoOf(words, document) {
  const { stdout, stderr } = spawnSync(MODINFO, ["analyze", ...words], { input: document });
  assert.equal(String(stderr), "");
  const info = JSON.parse(String(stdout));
  assert.equal(fault(info, schema), undefined);
  return info;
}

/**
 * @param {string} text
 * @param {string} [mediaType]
 */
export function answerOf(text, mediaType = "JavaScript") {
  return infoOf(["--source"], JSON.stringify({ specifier: "file:///module", mediaType, source: text }));
}

/**
 * @param {string} text
 * @param {string} [mediaType]
 */
export function typescriptAnswer(text, mediaType = "TypeScript") {
  return answerOf(text, mediaType);
}

/**
 * What is found by a parser's tree, as `analyzeEstree` sends the tree.
 * @param {string} text
 * @param {string} mediaType
 * @param {{ tree: any, comments?: any }} parsed
 */
export function treeAnswer(text, mediaType, { tree, comments }) {
  return infoOf(["--estree"], estreeDocument(tree, text, "file:///module", unchecked(mediaType), { comments }));
}
