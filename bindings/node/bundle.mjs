/**
 * Writes the files of the package `modinfo` that are made of others: `module.js`, which has the module as text, and
 * `inline.js`, which imports `module.js`.
 *
 *     node bindings/node/bundle.mjs build/modinfo.wasm FOLDER VERSION
 *
 * FOLDER has the package. Exits with status 1 where the module has another version.
 */

import { mkdirSync, readFileSync, writeFileSync } from "node:fs";
import { createRequire } from "node:module";
import { join } from "node:path";
import { fileURLToPath } from "node:url";

/** What runs in browsers too, each file after those that it requires. */
const PARTS = ["webassembly", "errors", "estree_document", "input", "instance", "plans", "functions", "module_text"];
const DECLARED = /^(?:const|let|class|function) (?:\{ \w+: )?(\w+)/gm;
/** Imports, which the parts before have, and exports of types. */
const IMPORTS = /^import \{[^}]*\} from .*;\n|^export \* from .*;\n|^export \{\};\n/gm;

const require = createRequire(import.meta.url);
const { CHARACTERS, SINGLES } = require("./modinfo/dist/core/module_text.cjs");

/** @returns {any} the compiler */
function loadTypeScript() {
  try {
    return require("typescript");
  } catch {
    return require("/usr/share/nodejs/typescript");
  }
}

/**
 * A source of the package as JavaScript, without its imports.
 * @param {string} path
 */
function codeOf(path) {
  const { transpileModule, ModuleKind, ScriptTarget } = loadTypeScript();
  const text = readFileSync(new URL(`modinfo/src/${path}`, import.meta.url), "utf8");
  const compilerOptions = { module: ModuleKind.ES2022, target: ScriptTarget.ES2022 };
  return transpileModule(text, { compilerOptions }).outputText.replace(IMPORTS, "");
}

/** @returns {string} the parts, without what they import and export */
function partsOfAll() {
  const code = PARTS.map((part) => codeOf(`core/${part}.cts`).replace(/^export /gm, "")).join("\n");
  const names = [...code.matchAll(DECLARED)].map(([, name]) => name);
  const twice = names.find((name, at) => names.indexOf(name) !== at);
  if (twice !== undefined || /\brequire\(/.test(code)) {
    throw new Error(twice === undefined ? "a part still requires another one" : `two parts declare ${twice}`);
  }
  return code;
}

/** @param {number} number of a character, as core/module_text.cts has them */
const characterOf = (number) => String.fromCharCode(number + 0x23).replace("\\", "!");

/**
 * The module as a literal of the text that core/module_text.cts reads.
 * @param {Buffer} module
 */
export function literalOf(module) {
  const counts = Array(256).fill(0);
  module.forEach((byte) => {
    counts[byte]++;
  });
  const order = [...counts.keys()].sort((one, other) => counts[other] - counts[one]);
  const texts = order.map((_, at) => {
    const pairs = at - SINGLES;
    const first = SINGLES + Math.floor(pairs / CHARACTERS);
    return pairs < 0 ? characterOf(at) : characterOf(first) + characterOf(pairs % CHARACTERS);
  });
  const byBytes = new Map(order.map((byte, at) => [byte, texts[at]]));
  const text = Array.from(module, (byte) => byBytes.get(byte)).join("");
  return `"${Buffer.from(order).toString("hex")}${text}"`;
}

/**
 * An entry of the package as one ES module.
 * @param {string} entry
 */
function bundleOf(entry) {
  return partsOfAll() + codeOf(`${entry}.ts`).replace(/^(export \{[^}]*\}) from .*;$/gm, "$1;");
}

/**
 * The parts as a classic script, which declares `functions`.
 * @param {Buffer} module
 */
export function scriptOf(module) {
  const loader = codeOf("inline.ts").replace(/^export [^;]*;\n/gm, "");
  return `${partsOfAll()}const MODULE = ${literalOf(module)};\n${loader}const functions = functionsOf(read);\n`;
}

function main() {
  const [path, folder, version] = process.argv.slice(2);
  const module = readFileSync(path);
  const [major, minor, patch] = version.split(".").map(Number);
  const { Core } = require("./modinfo/dist/core/instance.cjs");
  if (new Core(module).version !== major * 10000 + minor * 100 + patch) {
    process.stderr.write(`${path} isn't of version ${version}\n`);
    process.exitCode = 1;
    return;
  }
  mkdirSync(join(folder, "dist"), { recursive: true });
  writeFileSync(join(folder, "dist/module.js"), `export default ${literalOf(module)};\n`);
  writeFileSync(join(folder, "dist/inline.js"), `import MODULE from "./module.js";\n${bundleOf("inline")}`);
}

if (process.argv[1] === fileURLToPath(import.meta.url)) {
  main();
}
