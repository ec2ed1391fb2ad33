/** A project of as many modules as are asked for, without files: what a report is made of. */

import { writeFileSync } from "node:fs";
import { join } from "node:path";
import { pathToFileURL } from "node:url";

import { cyclesOf } from "../../modinfo-graph/dist/graph/cycles.js";
import { indexOf, partsOf } from "../../modinfo-report/dist/data.js";
import { readLibraries } from "../../modinfo-report/dist/libraries.js";
import { Links, edgesOf } from "../../modinfo-report/dist/links.js";
import { listsOf } from "../../modinfo-report/dist/lists.js";
import { marksOf } from "../../modinfo-report/dist/marks.js";
import { outsideOf } from "../../modinfo-report/dist/outside.js";
import { pageOf } from "../../modinfo-report/dist/page.js";
import { folderOf } from "../run_commands.mjs";

const WORDS = ["core", "view", "model", "route", "store", "parse", "format", "client", "server", "util", "test", "theme"];

/** @type {import("../../modinfo-graph/dist/graph/pictures.js").Kind[]} */
const KINDS = ["static", "static", "type", "dynamic"];

/**
 * Returns numbers below a bound that look like chance and are the same each time: Lehmer's generator.
 * @param {number} seed
 */
function chance(seed) {
  let state = seed;
  return (/** @type {number} */ bound) => {
    state = (state * 48_271) % 2_147_483_647;
    return state % bound;
  };
}

/**
 * Paths of modules: about twelve in a folder, and folders in folders; or all in one folder.
 * @param {number} count
 * @param {boolean} isFlat
 */
function pathsOf(count, isFlat) {
  return Array.from({ length: count }, (_, at) => {
    const group = isFlat ? 0 : Math.floor(at / 12);
    const folders = [];
    for (let rest = group; rest > 0; rest = Math.floor(rest / WORDS.length)) {
      folders.unshift(WORDS[rest % WORDS.length]);
    }
    return [...folders, `${WORDS[at % 12]}_${at}.js`].join("/");
  }).sort();
}

/**
 * @param {import("../../modinfo-graph/dist/graph/pictures.js").Kind} kind
 * @param {string} name
 * @param {{ resolved: import("../../modinfo-graph/dist/graph/graph.cjs").Resolution, line: number }} found
 * @returns {import("../../modinfo-report/dist/rows.js").Row}
 */
function rowOf(kind, name, { resolved, line }) {
  return { kind, word: "import", name, resolved, range: [[line, 7], [line, 9 + name.length]] };
}

/**
 * @param {string[]} paths
 * @returns {import("../../modinfo-report/dist/project.js").Module[]} each imports modules near to it and a
 *   few others, as a project's do
 */
function modulesOf(paths) {
  const random = chance(paths.length);
  const urls = paths.map((path) => `file:///project/${path}`);
  return paths.map((path, at) => {
    const near = at % 11 === 5 ? [] : [at + 1 + random(6), at + 1 + random(12), random(at + 1)];
    const found = [...new Set(near)].filter((to) => to < paths.length && to !== at && random(3) > 0);
    /** @type {{ text: string, resolved: import("../../modinfo-graph/dist/graph/graph.cjs").Resolution }[]} */
    const names = found.map((to) => ({ text: `/${paths[to]}`, resolved: { class: "file", file: urls[to] } }));
    if (random(5) === 0) {
      names.push({ text: `package-${random(900)}`, resolved: { class: "package", package: `package-${random(900)}` } });
    }
    const rows = names.map(({ text, resolved }, line) => rowOf(KINDS[random(4)], text, { resolved, line }));
    const source = `${names.map(({ text }) => `import "${text}";\n`).join("")}${"call();\n".repeat(random(400))}`;
    return { file: `/project/${path}`, path, key: urls[at], source, rows, marks: marksOf(source, rows) };
  });
}

/**
 * @param {number} count of the modules
 * @param {{ isFlat?: boolean }} options whether they are in one folder
 * @returns {string} the address of the report's page
 */
export function madeReport(count, { isFlat = false } = {}) {
  const modules = modulesOf(pathsOf(count, isFlat));
  const links = new Links("/project", modules);
  const edges = edgesOf(modules, links);
  const led = new Set(edges.map(({ to }) => to));
  const unreached = [...modules.keys()].filter((module) => !led.has(module));
  const lists = listsOf(modules, links, edges, {
    unreached: { unreached, mayBeReached: [], byTypes: [] }, cycles: cyclesOf(modules.length, edges),
  });
  const parts = [...partsOf(modules, links)];
  const found = { title: "made", modules, edges, entries: [], lists, outside: outsideOf(modules, links) };
  const index = indexOf(found, parts.map(({ start }) => start));
  const page = join(folderOf(), "report.html");
  writeFileSync(page, pageOf(index, parts.map((part) => part.modules), readLibraries()));
  return pathToFileURL(page).href;
}
