/** Texts of the machine that are changed by seed. */

import { existsSync, readFileSync, readdirSync, statSync } from "node:fs";
import { join } from "node:path";

import { mediaTypeOf } from "../equipment/media_types.mjs";

/** @typedef {import("./program.mjs").Module} Module */

export const FOLDER = "/usr/share/nodejs";
/** Bytes of the files that are changed. */
const [LEAST, MOST] = [150, 2500];

/** What is put in. */
const WORDS = [
  ..."/ } { ` ${ ( ) [ ] < > => ? : # @ ... ?. ! ' \" \\ */ /* // -- ++ , ; . = + - * && ?? | & << >> >>= /=".split(" "),
  ..."async await yield let of in as satisfies type function class static get new return for if else export default".split(" "),
  ..."from const enum declare abstract namespace interface extends infer keyof typeof is asserts using accessor with".split(" "),
  "\n", "\u2028", "\u00a0", ' import("m") ', ' require("m") ', ' /* @ts-types="./t" */ ', ' // @deno-types="./t"\n', "<a>", "</a>", "<T,>",
];

const paths = (existsSync(FOLDER) ? readdirSync(FOLDER, { recursive: true, encoding: "utf8" }) : [])
  .filter((name) => mediaTypeOf(name))
  .map((name) => join(FOLDER, name))
  .filter((path) => statSync(path).isFile() && statSync(path).size >= LEAST && statSync(path).size <= MOST)
  .sort();

/** Why there are no texts, or false. */
export const skip = paths.length === 0 && `${FOLDER} has no JavaScript`;

/**
 * Texts without end, the same for each seed on the same machine.
 * @param {bigint} seed
 * @returns {Generator<Module>}
 */
export function* changedTexts(seed) {
  let state = (seed * 0x9E3779B97F4A7C15n) & 0xFFFFFFFFFFFFFFFFn;
  const random = (/** @type {number} */ limit) => {
    state = (state * 6364136223846793005n + 1442695040888963407n) & 0xFFFFFFFFFFFFFFFFn;
    return Number((state >> 33n) % BigInt(limit));
  };
  for (;;) {
    const path = paths[random(paths.length)];
    yield { text: changed(readFileSync(path, "utf8"), random), mediaType: String(mediaTypeOf(path)) };
  }
}

/**
 * @param {string} text
 * @param {(limit: number) => number} random
 */
function changed(text, random) {
  const tokens = text.match(/[\p{ID_Continue}$]+|\s+|[^\p{ID_Continue}$\s]/gu) ?? [""];
  for (let left = 1 + random(2); left > 0; left--) {
    const at = random(tokens.length);
    const other = random(tokens.length);
    const word = WORDS[random(WORDS.length)];
    switch (random(5)) {
      case 0: tokens.splice(at, 1, ""); break;
      case 1: tokens.splice(at, 0, ` ${word} `); break;
      case 2: [tokens[at], tokens[other]] = [tokens[other], tokens[at]]; break;
      case 3: tokens[at] = word; break;
      default: tokens.splice(at, 0, tokens[other]);
    }
  }
  return tokens.slice(0, random(30) === 0 ? random(tokens.length) : tokens.length).join("");
}
