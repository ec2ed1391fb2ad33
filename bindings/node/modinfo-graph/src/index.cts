/** The package for `require`. Node before 20.19 can't load the ES module at once. */

import type { Calls, ModinfoOptions } from "./options.cjs";

export * from "modinfo";
export * from "./options.cjs";

/** By their names, whether a call has a document first. */
const CALLS = {
  analyze: true, convert: true, reach: true, check: true,
  analyzeEstree: false, checkSource: false, moduleInfo: false, resolve: false, graph: false, close: false,
};

type Call = (...words: unknown[]) => Promise<unknown>;

export interface Modinfo extends Calls {}

export class Modinfo {
  #started: Promise<Record<string, Call>>;

  static {
    const calls = this.prototype as unknown as Record<string, Call>;
    for (const [name, isOfDocument] of Object.entries(CALLS)) {
      calls[name] = async function (this: Modinfo, ...words) {
        const [first, ...others] = words;
        const now = isOfDocument ? [documentNow(first), ...others] : words;
        return (await this.#started)[name](...now);
      };
    }
  }

  /** Throws nothing: calls are rejected with the error. */
  constructor(options?: ModinfoOptions) {
    this.#started = import("./index.js").then(({ Modinfo: Own }) => {
      return new Own(options) as unknown as Record<string, Call>;
    });
    this.#started.catch(() => {});
  }

  [Symbol.asyncDispose]() {
    return this.close();
  }
}

/** A copy of a document, or the JSON of what has one: the caller may change it before the ES module is there. */
function documentNow(document: unknown): unknown {
  if (typeof document === "string") {
    return document;
  }
  return document instanceof Uint8Array ? Uint8Array.from(document) : JSON.stringify(document) ?? document;
}
