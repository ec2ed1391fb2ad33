/** The report's graph in a browser, as a person sees and uses it. */

import assert from "node:assert/strict";

import { folderOf } from "../run_commands.mjs";
import { KEYS } from "./browser.mjs";
import {
  browser, exampleReport, hasProgram, listed, nodeNames, open, place, report, shown, texts, untilModule,
  untilMoved, untilPlace,
} from "./session.mjs";

const example = exampleReport();

/** The least height of a label's letters, in pixels. */
const READABLE = 11;

/** How high the letters of the graph's labels are in the window. */
const labelSizes = () => browser.run(`
  return [...document.querySelectorAll(".node text, .frame text")].map((each) => {
    return parseFloat(getComputedStyle(each).fontSize) * each.getScreenCTM().a;
  });
`);

/** Whether the graph's drawing is all in its box. */
const isWhole = () => browser.run(`
  const outer = document.querySelector(".drawing").getBoundingClientRect();
  return [...document.querySelectorAll(".node, .frame, .edges path")].every((each) => {
    const { left, right, top, bottom } = each.getBoundingClientRect();
    return left >= outer.left && right <= outer.right && top >= outer.top && bottom <= outer.bottom;
  });
`);

/**
 * Files of folders, each of which has modules in a chain; each leads to the first module of the next folder.
 * @param {number} folders
 * @param {number} modules
 */
function chained(folders, modules) {
  /** @type {Record<string, string>} */
  const files = {};
  for (let folder = 0; folder < folders; folder++) {
    for (let at = 0; at < modules; at++) {
      const next = at + 1 < modules ? `import "./m${at + 1}.js";\n` : "";
      const other = folder + 1 < folders ? `import "../f${folder + 1}/m0.js";\n` : "";
      files[`f${folder}/m${at}.js`] = next + other;
    }
  }
  return files;
}

shown("the graph has each module of a small project, with a box around those of a folder", async () => {
  await open(example);
  const paths = (await nodeNames()).sort();
  assert.deepEqual(paths, (await listed()).sort());
  assert.deepEqual((await texts(".frame-title text")).sort(), ["format/2", "legacy/3", "messages/2"]);
  const inside = await browser.run(`
    const frames = [...document.querySelectorAll(".frame")];
    return frames.map((frame) => {
      const outer = frame.querySelector("rect").getBoundingClientRect();
      const nodes = [...document.querySelectorAll(".node")].filter((node) => {
        const { left, right, top, bottom } = node.getBoundingClientRect();
        return left > outer.left && right < outer.right && top > outer.top && bottom < outer.bottom;
      });
      return nodes.map((node) => node.getAttribute("aria-label")).sort();
    }).sort();
  `);
  assert.deepEqual(inside, [
    ["src/format/numbers.js", "src/format/units.ts"],
    ["src/legacy/archive.cjs", "src/legacy/archive_types.d.ts", "src/legacy/table.cjs"],
    ["src/messages/de.js", "src/messages/en.js"],
  ]);
  // A folder's name is in its box alone, once.
  assert.ok((await texts(".node text")).every((label) => !label.includes("/")));
});

shown("edges differ by kind, and those between two folders are one with a count", async () => {
  await open(example);
  const edges = await texts(".edge title");
  for (const edge of [
    "src/main.ts → src/settings.ts: static", "src/main.ts → src/page.tsx: dynamic",
    "src/main.ts → src/report.ts: type", "src/main.ts → src/globals.d.ts: type",
    "src/legacy/archive.cjs → src/legacy/table.cjs: require",
    "src/main.ts → src/legacy/: 3 modules: static (1), type (1)",
    ...(hasProgram ? ["src/format/: 2 modules → src/report.ts: type (1), JSDoc (1)"] : []),
  ]) {
    assert.ok(edges.includes(edge), edge);
  }
  assert.equal(edges.length, new Set(edges).size);
  const kinds = ["static", "dynamic", "type", "require"];
  /** @type {[string, string][]} */
  const styles = await browser.run(`
    return arguments[0].map((kind) => {
      const { stroke, strokeDasharray } = getComputedStyle(document.querySelector(".edges .edge." + kind));
      return [stroke, strokeDasharray];
    });
  `, kinds);
  for (const at of [0, 1]) {
    assert.equal(new Set(styles.map((style) => style[at])).size, kinds.length);
  }
  assert.deepEqual((await texts(".legend li")).slice(0, 4), kinds);
});

shown("edges of many modules of two folders are one edge with a count", async () => {
  await open(report(folderOf(chained(2, 3))));
  assert.deepEqual((await texts(".edge title")).filter((title) => title.startsWith("f0/: ")), [
    "f0/: 3 modules → f1/: 3 modules: static (3)",
  ]);
  assert.deepEqual(await texts(".edge-count"), ["3"]);
});

/** The script that counts the edges of the graph that are seen. */
const COUNT_SEEN = `
  const edges = [...document.querySelectorAll(".edges .edge")];
  return edges.filter((edge) => getComputedStyle(edge).display !== "none").length
`;

shown("a click in the legend hides the edges of a kind, another one shows them", async () => {
  await open(example);
  const all = await browser.run(COUNT_SEEN);
  for (const expected of [all - 1, all]) {
    await browser.click(".legend li:nth-child(4) button");
    await browser.until(`${COUNT_SEEN} === arguments[0]`, expected);
  }
});

shown("the first view of 76 modules in 12 folders shows folders with counts, in labels that are read", async () => {
  const page = report(folderOf({ ...chained(12, 6), "a.js": `import "./f0/m0.js";`, "b.js": "", "c.js": "", "d.js": "" }));
  await open(page);
  const sizes = await labelSizes();
  assert.ok(sizes.length > 8);
  assert.ok(Math.min(...sizes) >= READABLE, String(Math.min(...sizes)));
  assert.equal(await isWhole(), true);
  const labels = await texts(".node text, .frame-title text");
  assert.ok(labels.includes("f3/6"), labels.join());
  assert.deepEqual((await texts(".node[data-module] text")).filter((label) => label.length === 4).sort(), ["a.js", "b.js", "c.js", "d.js"]);
});

shown("a folder opens on a click, with what is around it, and its path leads back", async () => {
  await open(report(folderOf(chained(12, 8))));
  await browser.click('.node[aria-label="f3/: 8 modules"]');
  await browser.until(`return document.querySelectorAll(".node[data-module]").length === 8`);
  const labels = await texts(".node text");
  assert.ok(labels.includes("f2/8") && labels.includes("f4/8") && labels.includes("m7.js"), labels.join());
  assert.deepEqual((await texts(".edge title")).filter((title) => title.startsWith("f2/")), [
    "f2/: 8 modules → f3/: 8 modules: static (8)",
  ]);
  await browser.click(".crumbs a");
  await browser.until(`return document.querySelector('.node[aria-label="f3/: 8 modules"]') !== null`);
});

shown("modules without edges are in a grid below the others, by name", async () => {
  const alone = Object.fromEntries([..."hgfedcba"].map((name) => [`${name}.js`, ""]));
  await open(report(folderOf({ ...alone, "x.js": `import "./y.js";`, "y.js": "" })));
  /** @type {{ name: string, left: number, top: number }[]} */
  const places = await browser.run(`
    return [...document.querySelectorAll(".node")].map((node) => {
      const { left, top } = node.getBoundingClientRect();
      return { name: node.textContent.slice(0, 1), left: Math.round(left), top: Math.round(top) };
    });
  `);
  const grid = places.filter(({ name }) => !"xy".includes(name));
  const lowest = Math.max(...places.filter(({ name }) => "xy".includes(name)).map(({ top }) => top));
  assert.ok(grid.every(({ top }) => top > lowest));
  grid.sort((one, other) => one.top - other.top || one.left - other.left);
  assert.equal(grid.map(({ name }) => name).join(""), "abcdefgh");
  assert.ok(new Set(grid.map(({ left }) => left)).size > 1, "more than one column");
});

/** The middle of the drawing's box. */
const middle = () => browser.run(`
  const { left, top, width, height } = document.querySelector(".drawing").getBoundingClientRect();
  return { x: Math.round(left + width / 2), y: Math.round(top + height / 2) };
`);

shown("dragging moves the drawing, and opens nothing", async () => {
  await open(example);
  const before = await place();
  const from = await browser.run(`
    const { left, top } = document.querySelector('.node[aria-label="src/main.ts"]').getBoundingClientRect();
    return { x: Math.round(left + 10), y: Math.round(top + 10) };
  `);
  await browser.drag(from, { x: from.x + 70, y: from.y - 30 });
  await untilMoved(before);
  await browser.until(`return document.querySelector(".dragging") === null`);
  const after = await place();
  assert.deepEqual([Math.round(after.x - before.x), Math.round(after.y - before.y)], [70, -30]);
  assert.equal(await browser.run("return location.hash"), "");
  await browser.click('.node[aria-label="src/main.ts"]');
  await untilModule("src/main.ts");
});

shown("the wheel makes the drawing larger around the pointer, and two fingers do", async () => {
  await open(example);
  const before = await place();
  const point = await middle();
  await browser.wheel(point, -300);
  await untilMoved(before);
  const after = await place();
  assert.ok(after.scale > before.scale);
  const under = (/** @type {{ x: number, scale: number }} */ { x, scale }) => (point.x - x) / scale;
  assert.ok(Math.abs(under(after) - under(before)) < 1);
  const beside = (/** @type {number} */ by) => [{ x: point.x - by, y: point.y }, { x: point.x + by, y: point.y }];
  await browser.pinch(beside(100), beside(50));
  await untilMoved(after);
  assert.ok(Math.abs((await place()).scale - after.scale / 2) < 0.1 * after.scale);
});

shown("keys move the drawing: + and - its size, 0 all of it on both sides, arrows its place", async () => {
  await open(example);
  const start = await place();
  await browser.type("++");
  await untilPlace("scale > arguments[0]", 1.4 * start.scale);
  assert.equal(await isWhole(), false);
  await browser.type("-");
  await browser.type("0");
  await untilPlace("String([x, y, scale]) === arguments[0]", String([start.x, start.y, start.scale]));
  assert.equal(await isWhole(), true);
  await browser.run(`document.querySelector(".drawing").focus()`);
  await browser.type(`${KEYS.left}${KEYS.left}${KEYS.up}`);
  await untilPlace("x - arguments[0] > 100 && y - arguments[1] > 50", start.x, start.y);
});

shown("on a node the arrows go to the nearest one, and Enter opens it", async () => {
  await open(example);
  const focused = () => browser.run(`return document.activeElement.getAttribute("aria-label")`);
  await browser.run(`document.querySelector('.node[aria-label="src/main.ts"]').focus()`);
  await browser.type(KEYS.right);
  await browser.until(`return document.activeElement.getAttribute("aria-label") !== "src/main.ts"`);
  const second = await focused();
  assert.ok(second !== "src/main.ts" && (await listed()).includes(second), second);
  await browser.type(KEYS.enter);
  await untilModule(second);
});

shown("a node that has the focus marks the edges of its modules that are drawn, and the others fade", async () => {
  await open(example);
  await browser.run(`document.querySelector('.node[aria-label="src/legacy/archive_types.d.ts"]').focus()`);
  await browser.until(`return document.querySelector(".edge.near") !== null`);
  const near = await browser.run(`return [...document.querySelectorAll(".node.near")].map((each) => each.getAttribute("aria-label")).sort()`);
  assert.deepEqual(near, ["src/legacy/archive_types.d.ts", "src/main.ts", "src/report.ts"]);
  const marked = await browser.run(`
    return [...document.querySelectorAll(".edge.near")].map(({ dataset, firstChild }) => firstChild.textContent).sort();
  `);
  assert.deepEqual(marked, [
    "src/legacy/: 3 modules → src/report.ts: type", "src/main.ts → src/legacy/: 3 modules: static (1), type (1)",
  ]);
  const faded = await browser.run(`return getComputedStyle(document.querySelector('.node[aria-label="src/page.tsx"]')).opacity`);
  assert.ok(Number(faded) < 0.5);
});

/** @type {() => Promise<[string, boolean][]>} the folders of the graph: their texts, and whether each is faded */
const folders = () => browser.run(`
  return [...document.querySelectorAll(".node:not([data-module]), .frame")].map((each) => {
    return [each.querySelector("text").textContent, Number(getComputedStyle(each).opacity) < 0.5];
  });
`);

/** @type {() => Promise<string[]>} the edges that aren't faded */
const brightEdges = () => browser.run(`
  return [...document.querySelectorAll(".edges .edge")].filter((each) => Number(getComputedStyle(each).opacity) >= 0.5)
    .map((each) => each.querySelector("title").textContent);
`);

shown("the filter filters the list, fades the graph, and counts in its folders", async () => {
  await open(report(folderOf({ ...chained(12, 30), "z/only.js": "" })));
  await browser.type("/");
  await browser.type("f3 M11");
  await browser.until(`return document.querySelector(".shown").textContent === "1 of 361 modules"`);
  assert.deepEqual(await listed(), ["f3/m11.js"]);
  const found = await folders();
  assert.ok(found.length > 5);
  assert.deepEqual(found.filter(([, isFaded]) => !isFaded), [["f3/1", false]]);
  assert.ok(found.some(([text]) => text === "f4/0"));
  assert.deepEqual(await brightEdges(), []);
  assert.deepEqual(await texts(".rows .heading"), ["f3/1 of 30"]);
  await browser.type(KEYS.escape);
  await browser.until(`return document.querySelector(".shown").textContent === "361 modules"`);
  assert.deepEqual((await folders()).filter(([, isFaded]) => isFaded), []);
  assert.ok((await brightEdges()).length > 5);
});

shown("while the filter fades nodes, of their edges nothing is left, and those between others stay", async () => {
  await open(report(folderOf({ "a.js": `import "./b.js";\nimport "./c.js";`, "b.js": `import "./a.js"; import "./c.js";`, "c.js": "" })));
  await browser.type("/");
  await browser.run(`
    const field = document.querySelector("#filter");
    field.value = "a.js";
    field.dispatchEvent(new Event("input"));
  `);
  assert.deepEqual(await brightEdges(), []);
  assert.equal(await browser.run(`return document.querySelectorAll(".halo:not(.left-out)").length`), 0);
  await browser.run(`
    const field = document.querySelector("#filter");
    field.value = "";
    field.dispatchEvent(new Event("input"));
  `);
  assert.deepEqual((await brightEdges()).sort(), [
    "a.js → b.js: static", "a.js → c.js: static", "b.js → a.js: static", "b.js → c.js: static",
  ]);
});

shown("a cycle is shown in the graph, its edges marked, with the lines that make it", async () => {
  const files = {
    "a.js": `import "./b.js";\n`, "b.js": `\nimport "./c.js";\nimport "./d.js";\n`,
    "c.js": `import "./a.js";\n`, "d.js": `import "./b.js";\n`, "e.js": `import "./a.js";\n`,
  };
  await open(report(folderOf(files)));
  await browser.click("#list-cycles .show");
  await browser.until(`return document.querySelectorAll(".edge.marked").length > 0`);
  assert.deepEqual((await nodeNames()).sort(), ["a.js", "b.js", "c.js", "d.js"]);
  assert.deepEqual((await texts(".edge.marked title")).sort(), [
    "a.js → b.js: static", "b.js → c.js: static", "c.js → a.js: static",
  ]);
  assert.deepEqual(await texts(".steps li"), ["a.js:1 static ./b.js", "b.js:2 static ./c.js", "c.js:1 static ./a.js"]);
});

shown("the picture of sizes has areas by bytes and by modules, and folders open", async () => {
  const files = { "big/a.js": "x;\n".repeat(900), "small/b.js": "x;\n".repeat(50), "small/c.js": "x;\n".repeat(50) };
  await open(report(folderOf(files)));
  await browser.click('.tabs a[data-figure="sizes"]');
  await browser.until(`return document.querySelector(".area") !== null`);
  const areas = () => browser.run(`
    return Object.fromEntries([...document.querySelectorAll(".area.depth-1")].map((each) => {
      return [each.title, each.offsetWidth * each.offsetHeight];
    }));
  `);
  const byBytes = await areas();
  assert.deepEqual(Object.keys(byBytes).sort(), ["big/: 2.7 kB", "small/: 300 B"]);
  assert.ok(Math.abs(byBytes["big/: 2.7 kB"] / byBytes["small/: 300 B"] - 9) < 2);
  await browser.click(".choice:not([aria-current])");
  await browser.until(`return document.querySelector('.area[title="small/: 2 modules"]') !== null`);
  const byModules = await areas();
  assert.ok(Math.abs(byModules["small/: 2 modules"] / byModules["big/: 1 module"] - 2) < 0.3);
  await browser.run(`document.querySelector('.area[title="small/: 2 modules"]').click()`);
  await browser.until(`
    const has = (title) => document.querySelector('.area[title="' + title + '"]') !== null;
    return has("small/b.js: 1 module") && !has("small/: 2 modules");
  `);
  await browser.run(`document.querySelector('.area[title="small/b.js: 1 module"]').click()`);
  await untilModule("small/b.js");
});
