/** The graph of a report: its edges, its lists, and what is written for Graphviz. */

import assert from "node:assert/strict";
import { spawnSync } from "node:child_process";
import { test } from "node:test";

import { cyclesOf } from "../modinfo-graph/dist/graph/cycles.js";
import { dotText, quoted } from "../modinfo-graph/dist/graph/pictures.js";
import { Links, countEdges, edgesOf } from "../modinfo-report/dist/links.js";
import { listsOf } from "../modinfo-report/dist/lists.js";
import { outsideOf } from "../modinfo-report/dist/outside.js";
import { gridOf, shelvesOf } from "../modinfo-report/dist/page/layout_grid.js";
import { curveOf, placeOfCount, pointsOnCurve } from "../modinfo-report/dist/page/layout_curves.js";
import { folderOf } from "./run_commands.mjs";

/**
 * @typedef {import("../modinfo-report/dist/links.js").Edge} Edge
 * @typedef {import("../modinfo-report/dist/project.js").Module} Module
 * @typedef {import("../modinfo-report/dist/rows.js").Row} Row
 * @typedef {import("../modinfo-graph/dist/graph/graph.cjs").Resolution} Resolution
 */

/**
 * Edges of one kind, each written as "from to".
 * @param {string[]} texts
 * @param {Edge["kind"]} kind
 * @returns {Edge[]}
 */
function edges(texts, kind = "static") {
  return texts.map((text) => {
    const [from, to] = text.split(" ").map(Number);
    return { from, to, kind, row: 0, line: 0 };
  });
}

test("cycles are the sets of modules that reach one another, each with a shortest way", () => {
  const found = cyclesOf(9, edges(["0 1", "1 2", "2 0", "2 1", "2 3", "3 4", "5 5", "6 7", "7 6", "8 6"]));
  assert.deepEqual(found, [
    { modules: [0, 1, 2], path: [0, 1, 2], isRun: true },
    { modules: [5], path: [5], isRun: true },
    { modules: [6, 7], path: [6, 7], isRun: true },
  ]);
  assert.deepEqual(cyclesOf(3, edges(["0 1", "1 2", "0 2"])), []);
  assert.deepEqual(cyclesOf(0, []), []);
});

test("a shortest way leaves out what isn't needed", () => {
  const [cycle] = cyclesOf(4, edges(["0 1", "1 2", "2 3", "3 0", "1 0"]));
  assert.deepEqual(cycle, { modules: [0, 1, 2, 3], path: [0, 1], isRun: true });
});

test("a cycle that types close isn't one of what runs", () => {
  const typed = [...edges(["0 1", "2 3", "3 2"]), ...edges(["1 0"], "type"), ...edges(["2 3"], "jsdoc")];
  assert.deepEqual(cyclesOf(4, typed).map(({ modules, isRun }) => [modules, isRun]), [
    [[0, 1], false], [[2, 3], true],
  ]);
});

test("cycles of a long chain are found without recursion", () => {
  const chain = edges(Array.from({ length: 50_000 }, (_, at) => `${at} ${(at + 1) % 50_000}`));
  const [cycle, ...others] = cyclesOf(50_000, chain);
  assert.deepEqual([cycle.modules.length, cycle.path.length, others.length], [50_000, 50_000, 0]);
});

/**
 * @param {...any} rows
 * @returns {Row[]} the rows of a module, each on a line of its own
 */
function rowsWith(...rows) {
  return rows.map((row, line) => ({ kind: "static", word: "import", range: [[line, 0], [line, 1]], ...row }));
}

/**
 * @param {string} folder
 * @param {string} path
 * @param {Row[]} rows
 * @returns {Module}
 */
function moduleWith(folder, path, rows) {
  return { path, file: `${folder}/${path}`, key: `file://${folder}/${path}`, source: "", rows, marks: [] };
}

/**
 * Two modules of a project, of which the first has these rows.
 * @param {any[]} rows
 */
function projectWith(rows, paths = ["a.ts", "b.ts"]) {
  const modules = paths.map((path) => moduleWith("/project", path, []));
  modules[0].rows = rowsWith(...rows);
  return { modules, links: new Links("/project", modules) };
}

test("rows lead to modules of the report, to other files, or to what is outside", () => {
  const { links } = projectWith([]);
  /** @type {(name: Row["name"], resolved: Resolution | undefined) => unknown} */
  const target = (name, resolved) => links.target(rowsWith({ name, resolved })[0], "/project/a.ts");
  assert.deepEqual(target("./b.js", { class: "file", file: "file:///project/b.ts" }), { module: 1 });
  assert.deepEqual(target("../c.js", { class: "file", file: "file:///c.ts" }), { class: "file", file: "../c.ts" });
  assert.deepEqual(target("fs", { class: "builtin" }), { class: "builtin", file: undefined });
  assert.deepEqual(target("./none.js", { class: "missing" }), { class: "missing", file: undefined });
  assert.equal(target(null, { class: "unknown" }), undefined);
  assert.equal(target([{ type: "expr" }], { class: "unknown" }), undefined);
  assert.equal(target("map.json", undefined), undefined);
});

test("each row that leads to a module is an edge, with its line, and the types that a comment names are one", () => {
  const [a, b] = ["a.ts", "b.ts"].map((path) => ({ class: "file", file: `file:///project/${path}` }));
  const { modules, links } = projectWith([
    { name: "./b.js", resolved: b, types: { text: "./a.js", resolved: a } },
    { name: "./b.ts", resolved: b },
    { kind: "pragma", name: "./b.js", resolved: b },
    { kind: "require", name: "fs", resolved: { class: "builtin" } },
  ]);
  const found = edgesOf(modules, links);
  assert.deepEqual(found, [
    { from: 0, to: 1, kind: "static", row: 0, line: 0 }, { from: 0, to: 0, kind: "type", row: 0, line: 0 },
    { from: 0, to: 1, kind: "static", row: 1, line: 1 }, { from: 0, to: 1, kind: "type", row: 2, line: 2 },
  ]);
  assert.equal(countEdges(found), 3);
});

test("what runs leads to the file that runs and to its types, a type to the types, and a declaration file runs nothing", () => {
  const resolved = { class: "file", file: "file:///project/b.js", types: "file:///project/b.d.ts" };
  const rows = [{ name: "./b.js", resolved }, { kind: "type", name: "./b.js", resolved }];
  const ends = (/** @type {string[]} */ paths) => {
    const { modules, links } = projectWith(rows, paths);
    return edgesOf(modules, links).map(({ to, kind, row }) => [row, paths[to], kind]);
  };
  assert.deepEqual(ends(["a.ts", "b.js", "b.d.ts"]), [
    [0, "b.js", "static"], [0, "b.d.ts", "type"], [1, "b.d.ts", "type"],
  ]);
  assert.deepEqual(ends(["a.d.ts", "b.js", "b.d.ts"]).map(([, , kind]) => kind), ["type", "type"]);
});

test("packages have the version that is installed, else the range of the nearest package.json", () => {
  const folder = folderOf({
    "package.json": `{"name":"app","devDependencies":{"b":"^1.2.0"}}`,
    "node_modules/a/package.json": `{"name":"a","version":"7.0.1"}`,
    "node_modules/a/lib/package.json": `{"type":"module"}`,
    "node_modules/a/lib/x.js": "",
    "src/m.js": "",
  });
  const installed = { class: "package", package: "a", file: `file://${folder}/node_modules/a/lib/x.js` };
  const modules = [moduleWith(folder, "src/m.js", rowsWith(
    { name: "a", resolved: installed }, { name: "b", resolved: { class: "package", package: "b" } },
    { name: "c/d", resolved: { class: "package", package: "c" } }, { name: "a/lib/x.js", resolved: installed },
    { name: "node:fs", resolved: { class: "builtin" } }, { name: "fs", resolved: { class: "builtin" } },
  ))];
  const { packages, builtins } = outsideOf(modules, new Links(folder, modules));
  assert.deepEqual(packages, [
    { name: "a", version: "7.0.1", isAbsent: undefined, users: [0, 0, 0, 0, 3, 3] },
    { name: "b", version: "^1.2.0", isAbsent: true, users: [0, 1, 1] },
    { name: "c", version: undefined, isAbsent: true, users: [0, 2, 2] },
  ]);
  assert.deepEqual(builtins.map(({ name, users }) => [name, users]), [["fs", [0, 4, 4, 0, 5, 5]]]);
});

test("a version is a text of a package.json, whatever else is in its place", () => {
  const folder = folderOf({
    "package.json": `{"name":"app","dependencies":{"b":{"toString":null},"c":1},"peerDependencies":"d","devDependencies":{"b":"^1.0.0"}}`,
    "node_modules/a/package.json": `{"name":"a","version":{"toString":null,"valueOf":null}}`, "node_modules/a/x.js": "",
    "src/m.js": "",
  });
  const names = ["a", "b", "c", "constructor", "toString", "__proto__", "length", "0"];
  const modules = [moduleWith(folder, "src/m.js", rowsWith(...names.map((name) => {
    const file = name === "a" ? { file: `file://${folder}/node_modules/a/x.js` } : {};
    return { name, resolved: { class: "package", package: name, ...file } };
  })))];
  const { packages } = outsideOf(modules, new Links(folder, modules));
  assert.deepEqual(packages.flatMap(({ name, version }) => (version === undefined ? [] : [[name, version]])), [["b", "^1.0.0"]]);
  assert.equal(packages.length, names.length);
});

test("a cycle has the lines that make it, those that run rather than those of types", () => {
  const [a, b] = ["a.ts", "b.ts"].map((path) => ({ class: "file", file: `file:///project/${path}` }));
  const { modules, links } = projectWith([{ kind: "type", name: "./b.js", resolved: b }, { name: "./b.js", resolved: b }]);
  modules[1].rows = rowsWith({ name: "./a.js", resolved: a });
  const found = edgesOf(modules, links);
  const none = { unreached: [], mayBeReached: [], byTypes: [] };
  const { cycles } = listsOf(modules, links, found, { unreached: none, cycles: cyclesOf(modules.length, found) });
  assert.deepEqual(cycles.map(({ rows }) => rows), [[
    { module: 0, row: 1, line: 1, kind: "static", name: "./b.js" },
    { module: 1, row: 0, line: 0, kind: "static", name: "./a.js" },
  ]]);
});

/**
 * The text for Graphviz.
 * @param {string[]} names of modules
 * @param {Edge[]} between
 */
function dotOf(names, between) {
  return dotText([...names.keys()], between, (module) => names[module]);
}

test("labels are texts to Graphviz, whatever they have in them", () => {
  assert.equal(quoted(`a"b\\N&lt;\n`), `"a\\"b\\\\N&amp;lt;\ufffd"`);
  assert.ok(dotOf([`"] ; evil [label="`], []).includes(`m0 [label="\\"] ; evil [label=\\""];`));
});

test("the text for Graphviz has each node and each edge once", () => {
  const lines = dotOf(["a.js", "b.js"], [...edges(["0 1", "0 1"]), ...edges(["1 0"], "dynamic")]).split("\n").map((line) => line.trim());
  assert.equal(lines[0], "digraph modules {");
  assert.ok(lines.includes(`m0 [label="a.js"];`));
  assert.equal(lines.filter((line) => /^m0 -> m1 \[color="#[0-9a-f]{6}", style=solid\];$/.test(line)).length, 1);
  assert.ok(lines.some((line) => /^m1 -> m0 \[color="#[0-9a-f]{6}", style=dashed, label=dynamic\];$/.test(line)));
});

const hasDot = spawnSync("dot", ["-V"]).status === 0;

test("Graphviz reads names of any kind", { skip: !hasDot && "dot isn't installed: it is in Debian's graphviz" }, () => {
  const names = [`a"b`, "c\\", "<b>d</b>", "&lt;", "\u0001\n", "größe 😀.ts", "m0 -> m1", "node"];
  const { stdout } = spawnSync("dot", ["-Tjson0"], { input: dotOf(names, edges(["0 1", "1 2", "2 0", "7 7"])) });
  const { objects, edges: drawn } = JSON.parse(String(stdout));
  assert.deepEqual(objects.map((/** @type {{ name: string }} */ { name }) => name).sort(), names.map((_, at) => `m${at}`));
  assert.equal(drawn.length, 4);
});

test("a grid is filled row by row, in as many columns as there is room for", () => {
  /** @type {[number, number][]} */
  const sizes = [[30, 10], [50, 10], [20, 10], [40, 10], [10, 10]];
  assert.deepEqual(gridOf(sizes, { gap: 5, width: 100 }), {
    corners: [[0, 0], [35, 0], [0, 15], [35, 15], [0, 30]], width: 85, height: 40,
  });
  assert.deepEqual(gridOf([[30, 10]], { gap: 5, width: 10 }), { corners: [[0, 0]], width: 30, height: 10 });
});

test("shelves hold rectangles that don't overlap, in about the shape of their room", () => {
  /** @type {[number, number][]} */
  const sizes = Array.from({ length: 30 }, (_, at) => [20 + 7 * (at % 5), 10 + 11 * (at % 3)]);
  const { corners, width, height } = shelvesOf(sizes, { gap: 4, aspect: 2 });
  corners.forEach(([x, y], at) => {
    assert.ok(x >= 0 && y >= 0 && x + sizes[at][0] <= width && y + sizes[at][1] <= height);
    corners.slice(0, at).forEach(([left, top], other) => {
      const [wide, tall] = sizes[other];
      assert.ok(x >= left + wide || left >= x + sizes[at][0] || y >= top + tall || top >= y + sizes[at][1]);
    });
  });
  assert.ok(width / height > 1 && width / height < 4);
});

test("a curve begins and ends at its points, and a count is on it", () => {
  const points = [{ x: 0, y: 0 }, { x: 10, y: 20 }, { x: 30, y: 20 }, { x: 40, y: 0 }];
  assert.equal(curveOf(points), "M0 0Q10 20 20 20Q30 20 40 0");
  assert.equal(curveOf(points.slice(0, 2)), "M0 0L10 20");
  // Half way along the first of its quadratic curves: (start + 2 bend + end) / 4.
  const [middle, ...others] = pointsOnCurve(points, { x: 11, y: 20 });
  assert.deepEqual(middle, { x: 10, y: 15 });
  assert.ok(others.every(({ x, y }) => x > 0 && x < 20 && y > 0 && y < 20 && x !== 10), JSON.stringify(others));
});

test("counts on edges don't overlap where there is room along a curve", () => {
  const points = [{ x: 50, y: 50 }, { x: 50, y: 60 }, { x: 50, y: 70 }, { x: 80, y: 50 }];
  /** @type {{ x: number, y: number, width: number }[]} */
  const counts = [];
  const places = [2, 3, 1000, 4].map((count) => placeOfCount(points, count, counts));
  // Each is 16 high, and 8 and 7 for each character wide.
  assert.deepEqual(places, [points[0], points[2], points[3], points[0]]);
  assert.deepEqual(counts.map(({ width }) => width), [15, 15, 43, 15]);
});
