/** The WebAssembly module. */

import { existsSync, readFileSync } from "node:fs";
import { fileURLToPath } from "node:url";

import { wasmFiles } from "./wasm_files.cjs";

const own = fileURLToPath(new URL("./module.js", import.meta.url));

export const { compiledModule, modulePath, read } = wasmFiles({ existsSync, readFileSync, own });
