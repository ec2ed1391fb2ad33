/** The package for `require`. */

import { existsSync, readFileSync } from "node:fs";
import { join } from "node:path";

import { functionsOf } from "./core/functions.cjs";
import { wasmFiles } from "./wasm_files.cjs";

export * from "./types/calls.cjs";
export { ModinfoFault, ProgramEnd } from "./core/errors.cjs";
export { estreeDocument } from "./core/estree_document.cjs";
const { read } = wasmFiles({ existsSync, readFileSync, own: join(__dirname, "module.js") });
export const {
  analyze, analyzeEstree, analyzeEstreeSync, analyzeSync, check, checkSource, checkSourceSync, checkSync, convert,
  convertSync, init, initSync, moduleBytes, moduleInfo, moduleInfoSync, reach, reachSync,
} = functionsOf(read);
