/**
 * Finds what modules depend on, from their texts and trees, by the WebAssembly module.
 *
 *     const info = await moduleInfo(text, "file:///a.ts");
 */

import { functionsOf } from "./core/functions.cjs";
import { read } from "./wasm_module.js";

export * from "./types/calls.cjs";
export { ModinfoFault, ProgramEnd } from "./core/errors.cjs";
export { estreeDocument } from "./core/estree_document.cjs";
export const {
  analyze, analyzeEstree, analyzeEstreeSync, analyzeSync, check, checkSource, checkSourceSync, checkSync, convert,
  convertSync, init, initSync, moduleBytes, moduleInfo, moduleInfoSync, reach, reachSync,
} = /* #__PURE__ */ functionsOf(read);
