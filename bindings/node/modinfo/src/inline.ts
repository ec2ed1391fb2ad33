/** The package for pages, workers and bundles, which has its module as text. */

import { functionsOf } from "./core/functions.cjs";
import { bytesOfText } from "./core/module_text.cjs";

/** The module as text, which bundle.mjs puts before this code. */
declare const MODULE: string;

const read = () => bytesOfText(MODULE);

export * from "./types/calls.cjs";
export { ModinfoFault, ProgramEnd } from "./core/errors.cjs";
export { estreeDocument } from "./core/estree_document.cjs";
export const {
  analyze, analyzeEstree, analyzeEstreeSync, analyzeSync, check, checkSource, checkSourceSync, checkSync, convert,
  convertSync, init, initSync, moduleBytes, moduleInfo, moduleInfoSync, reach, reachSync,
} = /* #__PURE__ */ functionsOf(read);
