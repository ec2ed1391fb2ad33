/** Prints the documents of ESTree, by TypeScript's parser, of the files whose paths are on the standard input, one a line. */

import { readFileSync } from "node:fs";
import { createInterface } from "node:readline";
import { pathToFileURL } from "node:url";

import { estreeDocument } from "../../modinfo/dist/index.js";
import { unchecked } from "../unchecked.mjs";
import { mediaTypeOf } from "./media_types.mjs";
import { parseWithTypeScript } from "./typescript/index.mjs";

for await (const path of createInterface({ input: process.stdin, crlfDelay: Infinity })) {
  try {
    const [text, mediaType] = [readFileSync(path, "utf8"), mediaTypeOf(path) ?? "Other"];
    const { tree, comments } = parseWithTypeScript(text, mediaType);
    process.stdout.write(`${estreeDocument(tree, text, pathToFileURL(path).href, unchecked(mediaType), { comments })}\n`);
  } catch (error) {
    if (!(error instanceof SyntaxError)) {
      throw error;
    }
  }
}
