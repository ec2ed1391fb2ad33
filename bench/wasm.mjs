/**
 * Measures the WebAssembly module beside the library for C, libmodinfo.a in the module's folder, es-module-lexer where
 * Debian's package of it is installed, and acorn: the processor time over texts in memory, warm, and of a call on 1 kB;
 * and its sizes.
 *
 *     node bench/wasm.mjs build/modinfo.wasm [FILES [ROUNDS]]
 *
 * FILES is how many files of /usr/share/nodejs are taken, evenly among those of at most 60 kB; else 3200. Each of the
 * ROUNDS, else 8, is a pass over all texts by each engine in turn, so that other work slows them alike; the fastest
 * pass of each counts. Beside much other work, few files in many rounds, as 24 and 200, have the steadiest figures.
 * `call` calls the module alone, and `modinfo` the package's function, which reads the JSON too.
 */

import { execFileSync } from "node:child_process";
import { mkdtempSync, readFileSync, readdirSync, rmSync, statSync } from "node:fs";
import { createRequire } from "node:module";
import { loadavg, tmpdir } from "node:os";
import { dirname, join } from "node:path";
import { fileURLToPath } from "node:url";
import { brotliCompressSync } from "node:zlib";

import { functionsOf } from "../bindings/node/modinfo/dist/core/functions.cjs";
import { Core } from "../bindings/node/modinfo/dist/core/instance.cjs";

/** @typedef {[text: string, url: string]} Text */
/** @typedef {{ name: string, pass: () => number }} Engine whose pass returns milliseconds of the processor */

const FOLDER = "/usr/share/nodejs";
const LARGEST = 60_000;
const CALLS = 2000;
/** How many are printed of each engine: the first ones, and the fastest. */
const PASSES = 5;
/** Most times the time of the library, and of acorn; microseconds of a call; bytes. */
const AIMS = { library: 1.4, acorn: 0.33, call: 60, raw: 1_150_000, brotli: 290_000 };

const [path, count = "3200", rounds = "8"] = process.argv.slice(2);
const require = createRequire(import.meta.url);
const module = readFileSync(path);

/** @param {string} folder @returns {string[]} */
const filesBelow = (folder) => readdirSync(folder, { withFileTypes: true }).flatMap((entry) => {
  const file = join(folder, entry.name);
  return entry.isDirectory() ? filesBelow(file) : entry.isFile() && /\.[cm]?js$/.test(file) ? [file] : [];
});

/** @returns {Text[]} */
function readTexts() {
  const all = filesBelow(FOLDER).filter((file) => statSync(file).size <= LARGEST).sort();
  const most = Math.min(Number(count), all.length);
  return Array.from({ length: most }, (_, at) => all[Math.floor((at * all.length) / most)])
    .map((file) => [readFileSync(file, "utf8"), `file://${encodeURI(file)}`]);
}

/** The milliseconds of the processor that a function takes. @param {() => void} run */
function cost(run) {
  const before = process.cpuUsage();
  run();
  const { user, system } = process.cpuUsage(before);
  return (user + system) / 1000;
}

/** @param {Text[]} texts @returns {Engine} */
function library(texts) {
  const room = mkdtempSync(join(tmpdir(), "bench-"));
  process.on("exit", () => rmSync(room, { recursive: true }));
  const here = dirname(fileURLToPath(import.meta.url));
  const program = join(room, "native");
  const archive = join(dirname(path), "libmodinfo.a");
  execFileSync("cc", ["-O2", `-I${join(here, "../include")}`, "-o", program, join(here, "native.c"), archive]);
  const input = Buffer.concat(texts.flatMap((words) => {
    const [text, url] = words.map((word) => Buffer.from(word));
    return [Buffer.from(Uint32Array.of(url.length, text.length).buffer), url, text];
  }));
  return { name: "library for C", pass: () => Number(execFileSync(program, { input, encoding: "utf8" })) };
}

/** @param {string} name @param {Text[]} texts @param {(text: string, url: string) => void} run @returns {Engine} */
function engine(name, texts, run) {
  const pass = () => cost(() => texts.forEach(([text, url]) => {
    try {
      run(text, url);
    } catch {
      // A text that isn't a module for it.
    }
  }));
  return { name, pass };
}

/** @param {Text[]} texts @returns {Promise<Engine[]>} none where it isn't installed */
async function lexer(texts) {
  try {
    const { init, parse } = await import(`${FOLDER}/es-module-lexer/dist/lexer.js`);
    await init;
    return [engine("es-module-lexer", texts, (text) => parse(text))];
  } catch {
    console.log("es-module-lexer isn't installed");
    return [];
  }
}

const texts = readTexts();
const core = new Core(module);
const own = functionsOf(() => module);
await own.init();
const acorn = require(`${FOLDER}/acorn`);
const engines = [
  library(texts),
  engine("call", texts, (text, url) => core.runSource("analyze_source", text, url, 1)),
  engine("modinfo", texts, (text, url) => own.moduleInfoSync(text, url, "JavaScript")),
  ...await lexer(texts),
  engine("acorn", texts, (text) => acorn.parse(text, { ecmaVersion: "latest", sourceType: "module", onComment: [] })),
];

const megabytes = texts.reduce((sum, [text]) => sum + Buffer.byteLength(text), 0) / 1e6;
const load = loadavg()[0].toFixed(0);
console.log(`${texts.length} files, ${megabytes.toFixed(1)} MB, load ${load}; MB a second of processor time, in the first rounds and the fastest of ${rounds}`);
/** @type {Map<string, number[]>} */
const passes = new Map(engines.map(({ name }) => [name, []]));
for (let round = 0; round < Number(rounds); round++) {
  engines.forEach(({ name, pass }) => passes.get(name)?.push(pass()));
}
for (const [name, took] of passes) {
  const shown = took.slice(0, PASSES - 1).concat(Math.min(...took));
  console.log(name.padEnd(16), ...shown.map((each) => (megabytes * 1000 / each).toFixed(1).padStart(6)));
}

/** @param {string} name */
const fastest = (name) => Math.min(...passes.get(name) ?? []);
const kilobyte = `import a from "./a.js";\n${"export const b = (c) => c + 1; // d\n".repeat(28)}`;
const calls = () => cost(() => {
  for (let call = 0; call < CALLS; call++) {
    own.moduleInfoSync(kilobyte, "file:///a.js");
  }
});
const once = Math.min(...Array.from({ length: 5 }, calls)) * 1000 / CALLS;
console.log(`times the library's time: ${(fastest("call") / fastest("library for C")).toFixed(2)} (aim ${AIMS.library})`);
console.log(`times acorn's time: ${(fastest("call") / fastest("acorn")).toFixed(2)} (aim ${AIMS.acorn})`);
console.log(`a call on ${kilobyte.length} bytes: ${once.toFixed(0)} microseconds (aim ${AIMS.call})`);
console.log(`bytes: ${module.length} (aim ${AIMS.raw}), by brotli ${brotliCompressSync(module).length} (aim ${AIMS.brotli})`);
