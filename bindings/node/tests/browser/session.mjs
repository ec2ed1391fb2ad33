/** What the tests of the report's page share: a browser, pages, and what is asked of them. */

import assert from "node:assert/strict";
import { existsSync } from "node:fs";
import { join } from "node:path";
import { after, before, test } from "node:test";
import { fileURLToPath, pathToFileURL } from "node:url";

import { MODINFO, folderOf, run } from "../run_commands.mjs";
import { Browser, missingPrograms } from "./browser.mjs";

export const EXAMPLE = fileURLToPath(new URL("../../../../examples/project/", import.meta.url));

/** Why no page can be opened; false where one can. */
export const skip = missingPrograms();

/** JSDoc imports are read by the program itself alone. */
export const hasProgram = existsSync(MODINFO);

/**
 * The browser of all tests, which are skipped where there is none.
 * @type {Browser}
 */
export let browser;
if (!skip) {
  before(async () => {
    browser = await Browser.start();
  });
  after(() => browser?.close());
}

/**
 * @param {string} folder
 * @param {string[]} [words] of the command
 * @param {number} [status] that it has to end with
 * @returns {string} the address of the folder's page
 */
export function report(folder, words = [], status = 0) {
  const page = join(folderOf(), "report.html");
  const modinfo = MODINFO;
  const result = run("report", [...words, "-o", page, folder], { modinfo });
  assert.equal(result.status, status, result.stderr);
  return pathToFileURL(page).href;
}

/** @returns {string} the address of the example's page */
export function exampleReport() {
  // A name in it leads nowhere.
  return skip ? "" : report(EXAMPLE, ["--entry", join(EXAMPLE, "src/main.ts")], 1);
}

/**
 * A test in the browser, in which the page may log no error and load nothing.
 * @param {string} name
 * @param {() => Promise<void>} act
 */
export function shown(name, act) {
  test(name, { skip }, async () => {
    // The browser's own first page loads what it likes.
    await browser.open("about:blank");
    await browser.log("browser");
    await browser.log("performance");
    await act();
    assert.deepEqual(await browser.log("browser"), []);
    const urls = await requests();
    assert.ok(urls.length > 0, "the log hasn't even the page itself");
    for (const url of urls) {
      // The worker that lays out graphs runs a script of the page.
      assert.match(url, /^(?:file:\/\/\/.*\/report\.html|blob:null\/[-\w]+)$/);
    }
  });
}

/** The addresses that were asked for. */
async function requests() {
  /** @type {{ method: string, params: any }[]} */
  const events = (await browser.log("performance")).map(({ message }) => JSON.parse(message).message);
  return events
    .filter(({ method }) => method === "Network.requestWillBeSent")
    .map(({ params }) => params.request.url.replace(/#.*/, ""));
}

/**
 * Opens a page in an empty tab and waits for its picture or module. A page with a graph also has a list of choices,
 * which appears before the graph.
 * @param {string} url
 */
export async function open(url) {
  await browser.open("about:blank");
  await browser.open(url);
  await browser.until(`
    const hasDrawing = document.querySelector(".drawing") !== null;
    return document.querySelector(hasDrawing ? ".drawing svg, .drawing canvas, .drawing .none" : ".area, pre, .choices") !== null;
  `);
}

/**
 * Goes to another address of the open page.
 * @param {string} hash
 */
export async function go(hash) {
  await browser.run("location.hash = arguments[0]", hash);
}

/**
 * @param {string} selector
 * @returns {Promise<string[]>} the texts of elements
 */
export function texts(selector) {
  return browser.run(`return [...document.querySelectorAll(arguments[0])].map((each) => each.textContent)`, selector);
}

/** @returns {Promise<string[]>} the names of the nodes that are drawn */
export function nodeNames() {
  return browser.run(`
    return [...document.querySelectorAll(".node")].map((each) => each.getAttribute("aria-label"));
  `);
}

/**
 * Opens a module by its path in the list, and waits until it is there.
 * @param {string} path
 * @param {string} [shown] the path as the list has it, with the names of characters that aren't seen
 */
export async function openModule(path, shown = path) {
  await browser.run(`document.querySelector('.rows a[title="' + CSS.escape(arguments[0]) + '"]').click()`, shown);
  await untilModule(path);
}

/** @param {string} path */
export function untilModule(path) {
  return browser.until(
    `return document.querySelector(".module h1")?.textContent === arguments[0] && document.querySelector(".importers") !== null`,
    path,
  );
}

/**
 * Waits until the text of the open module is whole: a page adds the lines in several tasks.
 * @param {string} text
 */
export function untilText(text) {
  return browser.until(`return document.querySelector("pre code")?.textContent === arguments[0]`, text);
}

/**
 * @param {string} list
 * @returns {Promise<string[]>} the items of a list, each as its text
 */
export async function items(list) {
  /** @type {string[]} */
  const found = await browser.run(
    `return [...document.querySelectorAll("#list-" + arguments[0] + " li")].map((each) => each.innerText)`, list,
  );
  return found.map((text) => text.replace(/\s+/g, " ").trim());
}

/** @returns {Promise<string[]>} the modules that the list shows */
export function listed() {
  return browser.run(`
    return [...document.querySelectorAll("nav a[title]")]
      .filter((each) => each.getClientRects().length > 0).map((each) => each.title);
  `);
}

/**
 * The scale of a drawing, and the point of the window at which the drawing's origin is.
 * @returns {Promise<{ x: number, y: number, scale: number }>}
 */
export function place() {
  return browser.run(`
    const { a, e, f } = document.querySelector(".node rect").getScreenCTM();
    return { x: e, y: f, scale: a };
  `);
}

/**
 * Waits until a condition of a drawing's `x`, `y` and `scale`, as `place` returns them, is true.
 * @param {string} condition
 * @param {...unknown} args its arguments
 */
export function untilPlace(condition, ...args) {
  return browser.until(`
    const { a: scale, e: x, f: y } = document.querySelector(".node rect").getScreenCTM();
    return ${condition};
  `, ...args);
}

/**
 * Waits until a drawing has another scale or is at another point.
 * @param {{ x: number, y: number, scale: number }} before
 */
export function untilMoved({ x, y, scale }) {
  return untilPlace("String([x, y, scale]) !== arguments[0]", String([x, y, scale]));
}
