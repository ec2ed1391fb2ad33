/** The playground, opened as a file, and the package in a page and in a worker of it. */

import assert from "node:assert/strict";
import { spawnSync } from "node:child_process";
import { existsSync, mkdirSync, readFileSync, writeFileSync } from "node:fs";
import { createServer } from "node:http";
import { extname, join } from "node:path";
import { after, test } from "node:test";
import { fileURLToPath, pathToFileURL } from "node:url";

import { moduleInfo } from "../../modinfo/dist/index.js";
import { MODULE, folderOf } from "../run_commands.mjs";
import { Browser, missingPrograms } from "./browser.mjs";

const ROOT = new URL("../../../../", import.meta.url);
const skip = missingPrograms() || (!existsSync(MODULE) && "build/modinfo.wasm isn't made");
const folder = folderOf();
const PAGE = join(folder, "playground.html");
const PICTURES = fileURLToPath(new URL("build/report_pictures/", ROOT));

/** @type {Browser} */
let browser;
if (!skip) {
  browser = await Browser.start();
  after(() => browser.close());
}

/**
 * @param {string} script of node
 * @param {string[]} words
 */
function make(script, words) {
  const { stderr, status } = spawnSync(process.execPath, [fileURLToPath(new URL(script, ROOT)), ...words]);
  assert.deepEqual([String(stderr), status], ["", 0]);
}

/**
 * What the page shows.
 * @returns {Promise<{ marks: string[], rows: string[][], json: string, status: string, fault: boolean }>}
 */
const shown = () => browser.run(`
  const texts = (within, selector) => [...within.querySelectorAll(selector)].map((each) => each.textContent);
  return {
    marks: texts(document, "#marks mark"), rows: [...document.querySelectorAll("#found tr")].map((row) => texts(row, "td")),
    json: document.querySelector("#json").textContent, status: document.querySelector("#status").textContent,
    fault: document.querySelector("#status").classList.contains("fault"),
  };`);

/**
 * Puts a text, and waits until it is shown.
 * @param {string} text
 * @param {string} [url]
 */
async function put(text, url = "file:///main.ts") {
  const before = await browser.run("return document.body.dataset.shown");
  await browser.run(`
    document.querySelector("#specifier").value = arguments[1];
    const text = document.querySelector("#text");
    text.value = arguments[0];
    text.dispatchEvent(new Event("input"));`, text, url);
  await browser.until("return document.body.dataset.shown !== arguments[0]", before);
}

/** @param {string} name */
async function keepPicture(name) {
  mkdirSync(PICTURES, { recursive: true });
  writeFileSync(join(PICTURES, name), await browser.picture());
}

test("the playground marks an example, as the package finds it", { skip }, async () => {
  make("playground/build.mjs", [MODULE, PAGE]);
  await browser.open(pathToFileURL(PAGE).href);
  await browser.until("return document.body.dataset.shown !== undefined");
  const text = readFileSync(new URL("examples/small-module.ts", ROOT), "utf8");
  const { json, marks, rows, status, fault } = await shown();
  const info = await moduleInfo(text, "file:///small-module.ts");
  assert.deepEqual(JSON.parse(json), info);
  const names = (info.dependencies ?? []).map((each) => (each.type === "static" ? each.specifier : ""));
  assert.deepEqual(marks, names.map((name) => `"${name}"`));
  assert.deepEqual(rows.map((row) => row[1]), names);
  assert.deepEqual([status, fault], [`${names.length} names found`, false]);
  const [kind, sources] = readFileSync(`${MODULE}.origin`, "utf8").split("\n");
  const says = kind === "proved" ? "The functions that run here are proved" : "What runs here was made without proofs";
  assert.equal(await browser.run("return document.querySelector('#about').textContent"), `${says}; ${sources}.`);
  for (const scheme of ["light", "dark"]) {
    await browser.command("Emulation.setEmulatedMedia", { features: [{ name: "prefers-color-scheme", value: scheme }] });
    await keepPicture(`playground-${scheme}.png`);
  }
});

test("what one types is marked at once, also after signs of two units, and an error at its place", { skip }, async () => {
  await browser.run("const text = document.querySelector('#text'); text.value = ''; text.focus();");
  await browser.type("/*\u{1f600}*/ import('./a.js');");
  await browser.until("return document.querySelector('#marks mark')?.textContent === \"'./a.js'\"");
  assert.deepEqual((await shown()).rows, [["import()", "./a.js", "1:14"]]);
  await put("let a;\nlet 日本 = ;");
  assert.deepEqual(await shown().then(({ marks, status, fault }) => [marks, status, fault]), [[";"], "line 2, character 10: expected an expression", true]);
  await put("", "no URL");
  assert.equal((await shown()).fault, true);
  await put("// @ts-types='./c.d.ts'\nimport './c.js'; require(`./${x}.js`);", "file:///main.js");
  assert.deepEqual((await shown()).rows.map((row) => row.slice(0, 2)), [
    ["@ts-types", "./c.d.ts"], ["import", "./c.js"], ["require", "./*.js"],
  ]);
});

test("a row selects its name in the text, a link holds the text, and no message is logged", { skip }, async () => {
  const text = "import 'größe';\nimport '\u{1f600}'; export * from './z.js';";
  await put(text);
  await browser.click("#found tr:last-child button");
  assert.equal(await browser.run("const text = document.querySelector('#text'); return text.value.slice(text.selectionStart, text.selectionEnd);"), "'./z.js'");
  await browser.click("#link");
  const address = await browser.run("return location.href");
  await browser.open("about:blank");
  await browser.open(address);
  await browser.until("return document.body.dataset.shown !== undefined");
  assert.equal(await browser.run("return document.querySelector('#text').value"), text);
  assert.deepEqual((await browser.log("browser")).map(({ message }) => message), []);
});

test("every control has a name for those who can't see it", { skip }, async () => {
  const unnamed = await browser.run(`return [...document.querySelectorAll("button, input, select, textarea")]
    .filter((each) => !each.labels?.length && !each.getAttribute("aria-label") && !each.textContent.trim()).map((each) => each.outerHTML);`);
  assert.deepEqual(unnamed, []);
});

/**
 * Serves a folder.
 * @param {string} root
 * @returns {Promise<{ address: string, close: () => void }>}
 */
async function serve(root) {
  const javascript = "text/javascript";
  const types = /** @type {Record<string, string>} */ ({
    ".html": "text/html", ".js": javascript, ".mjs": javascript,
  });
  const server = createServer(({ url = "/" }, response) => {
    response.setHeader("Content-Type", types[extname(url)] ?? "text/plain");
    response.end(existsSync(join(root, url)) ? readFileSync(join(root, url)) : "");
  });
  await new Promise((resolve) => {
    server.listen(0, "127.0.0.1", () => resolve(undefined));
  });
  const { port } = /** @type {import("node:net").AddressInfo} */ (server.address());
  return { address: `http://127.0.0.1:${port}`, close: () => server.close() };
}

const CALL = `const info = await moduleInfo('import "./b.js";', "file:///a.js");
  const { fault, line } = await moduleInfo("(", "file:///a.js").catch((error) => error);
  const result = JSON.stringify([info.dependencies[0].specifier, fault, line]);`;

test("inline.js works in a page and in a worker, with the policy wasm-unsafe-eval", { skip }, async () => {
  const root = folderOf();
  const { version } = JSON.parse(readFileSync(new URL("bindings/node/modinfo/package.json", ROOT), "utf8"));
  make("bindings/node/bundle.mjs", [MODULE, root, version]);
  const policy = "script-src 'self' 'wasm-unsafe-eval'; worker-src 'self'";
  writeFileSync(join(root, "page.html"), `<!DOCTYPE html><meta http-equiv="Content-Security-Policy" content="${policy}">
    <script type="module" src="page.mjs"></script>`);
  writeFileSync(join(root, "page.mjs"), `import { moduleInfo } from "./dist/inline.js"; ${CALL}
    document.title = result;
    new Worker("worker.mjs", { type: "module" }).onmessage = ({ data }) => { document.body.textContent = data; };`);
  writeFileSync(join(root, "worker.mjs"), `import { moduleInfo } from "./dist/inline.js"; ${CALL} postMessage(result);`);
  const { address, close } = await serve(root);
  await browser.open(`${address}/page.html`);
  await browser.until("return document.body?.textContent.length > 2");
  assert.deepEqual(await browser.run("return [document.title, document.body.textContent]"), Array(2).fill('["./b.js","Syntax",1]'));
  close();
});
