/**
 * Writes the playground as one page, which works from a file too.
 *
 *     node playground/build.mjs build/modinfo.wasm build/playground.html
 */

import { readFileSync, writeFileSync } from "node:fs";

import { scriptOf } from "../bindings/node/bundle.mjs";

/** Of the folder examples, each with the name that is shown. */
const EXAMPLES = [
  ["small-module.ts", "a module of TypeScript"], ["page.tsx", "a page with JSX"], ["basket.js", "JSDoc"],
  ["messages.js", "import(..)"], ["test-internal-module-require.js", "CommonJS"], ["constants.d.ts", "a declaration file"],
];

/** @param {string} path from the repository */
const read = (path) => readFileSync(new URL(`../${path}`, import.meta.url), "utf8");

/** A text in an element for scripts, which no text in it may end. @param {string} text */
const inScript = (text) => text.replace(/<(?=\/script|!--)/gi, "\\x3c");

const [path, output] = process.argv.slice(2);
const module = readFileSync(path);
const examples = EXAMPLES.map(([name, says]) => ({
  name: `${says} (${name})`, parts: [read(`examples/${name}`), `file:///${name}`, ""],
}));
const parts = {
  "style.css": read("playground/style.css"),
  "worker.js": inScript(`${scriptOf(module)}\n${read("playground/worker.js")}`),
  examples: JSON.stringify(examples).replace(/</g, "\\u003c"),
  "page.js": inScript(read("playground/page.js")),
};
const page = read("playground/index.html")
  .replace(/\/\* ([\w.]+) \*\//g, (whole, name) => parts[/** @type {keyof typeof parts} */ (name)] ?? whole);
writeFileSync(output, page);
