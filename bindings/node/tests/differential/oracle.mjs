/** What other parsers say of a text: the information of the module that their trees have. */

import { estreeDocument } from "../../modinfo/dist/index.js";
import { Pool, processesOf } from "../../modinfo-graph/dist/runtime/pool.js";
import { documentCommand, lineOf } from "../equipment/document_command.mjs";
import { ACORN, PARSERS, TYPESCRIPT_PARSER, parsed } from "../estree_parsers.mjs";
import { MODINFO } from "../run_commands.mjs";
import { unchecked } from "../unchecked.mjs";
import { SYNTAX } from "./program.mjs";

/** @typedef {import("./program.mjs").Module} Module */

export class Oracle {
  #pool = new Pool(processesOf(documentCommand(MODINFO, "analyze --estree")), 1);

  /**
   * By acorn, where it doesn't read a text or its media type by TypeScript.
   * @param {Module} module
   * @returns {Promise<string>} JSON, or `Syntax` where neither reads it
   */
  async lineOf(module) {
    return await this.#line(ACORN, module) ?? await this.#line(TYPESCRIPT_PARSER, module) ?? SYNTAX;
  }

  /**
   * By every parser of the tests of ESTree that reads a text, by its name.
   * @param {Module} module
   * @returns {Promise<Map<string, string>>}
   */
  async linesOf(module) {
    const lines = new Map();
    for (const parser of PARSERS) {
      const line = await this.#line(parser, module);
      if (line !== undefined) {
        lines.set(parser.name, line);
      }
    }
    return lines;
  }

  /** Ends the process. */
  close() {
    this.#pool.kill();
  }

  /**
   * @param {import("../estree_parsers.mjs").Parser} parser
   * @param {Module} module
   * @returns {Promise<string | undefined>} nothing where the parser doesn't read it
   */
  async #line(parser, { text, mediaType }) {
    const input = parsed(parser, text, mediaType);
    if (!input) {
      return undefined;
    }
    const { tree, comments } = input;
    const document = estreeDocument(tree, text, "file:///a", unchecked(mediaType), { comments });
    return String(await this.#pool.run(lineOf(document)));
  }
}
