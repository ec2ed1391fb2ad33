/** Folders of any size: a matrix has all of their edges, and a neighbourhood is drawn whole. */

import assert from "node:assert/strict";

import { folderOf } from "../run_commands.mjs";
import { KEYS } from "./browser.mjs";
import { madeReport } from "./made_project.mjs";
import { browser, go, nodeNames, open, place, report, shown, skip, texts, untilModule, untilMoved } from "./session.mjs";

/** One folder of 200 modules: the first leads to 40 others, these to the last, and the rest to the first. */
const FLAT = Object.fromEntries(Array.from({ length: 200 }, (_, at) => {
  const first = Array.from({ length: 40 }, (__, to) => `import "./m${to + 1}.js";\n`).join("");
  return [`m${at}.js`, at === 0 ? first : at <= 40 ? `import "./m199.js";\n` : `import "./m0.js";\n`];
}));

const flat = skip ? "" : report(folderOf(FLAT));

/** What a screen reader has of the matrix. */
const matrixLabel = () => browser.run(`return document.querySelector(".drawing canvas")?.getAttribute("aria-label")`);

/** Waits for a matrix, and until it is painted. */
const untilMatrix = () => browser.until(`
  const canvas = document.querySelector(".drawing canvas");
  return canvas !== null && canvas.width > 300 && document.querySelector(".zoom") !== null;
`);

shown("a folder of too many modules for a drawing has a matrix with all edges, and links to each neighbourhood", async () => {
  await open(flat);
  await untilMatrix();
  // 40 of the first module, one of each of the 40, and of each of the other 159.
  assert.equal(await matrixLabel(), "matrix of 200 modules and 239 edges");
  const [bottom, choices] = await browser.run(`
    return [document.querySelector(".drawing").getBoundingClientRect().bottom, document.querySelectorAll(".choices li").length];
  `);
  assert.ok(bottom <= 900, `the matrix ends at ${bottom}`);
  assert.ok(choices >= 50);
  assert.equal(await browser.run(`return document.querySelector(".choices a").textContent`), "m0.js");
});

shown("640 modules in one folder are all in the picture", async () => {
  await open(madeReport(640, { isFlat: true }));
  await untilMatrix();
  assert.match(await matrixLabel(), /^matrix of 640 modules and /);
  assert.deepEqual(await nodeNames(), []);
});

/**
 * The middle of the cell of a row and a column, of a matrix that is shown as a whole: the cells have 14 pixels, the
 * names before them 150, at a scale of at most 1.1.
 */
const CELL = `
  const { left, top, width, height } = document.querySelector(".drawing canvas").getBoundingClientRect();
  const side = 150 + 14 * arguments[0];
  const scale = Math.min(1.1, (width - 24) / side, (height - 24) / side);
  const at = (row) => (150 + 14 * (row + 0.5)) * scale;
  return { x: Math.round(left + (width - side * scale) / 2 + at(arguments[2])), y: Math.round(top + (height - side * scale) / 2 + at(arguments[1])) };
`;

const SMALL = { "z.js": `import "./a.js";\nimport "./b.js";\n`, "a.js": `\nimport "./b.js";\n`, "b.js": "" };

/**
 * Moves the pointer over the matrix.
 * @param {number} x
 * @param {number} y
 */
const point = (x, y) => browser.run(`
  const [clientX, clientY] = arguments;
  document.querySelector(".drawing canvas").dispatchEvent(new PointerEvent("pointermove", { clientX, clientY }));
`, x, y);

shown("a matrix has a module above those that it leads to; a mark has its edge, and opens its line on a click", async () => {
  await open(`${report(folderOf(SMALL))}#matrix-0`);
  await untilMatrix();
  assert.equal(await matrixLabel(), "matrix of 3 modules and 3 edges");
  // The rows are z.js, a.js and b.js.
  for (const [row, column, text] of /** @type {const} */ ([
    [0, 1, "z.js → a.js: static"], [0, 2, "z.js → b.js: static"], [1, 2, "a.js → b.js: static"],
  ])) {
    const { x, y } = await browser.run(CELL, 3, row, column);
    await point(x, y);
    assert.equal((await texts(".graph > .hint"))[0], text);
    await browser.drag({ x, y }, { x, y });
    await browser.until(`return document.querySelector(".module") !== null`);
    assert.match(await browser.run(`return document.querySelector(".module h1").textContent`), new RegExp(`^${text.slice(0, 4)}`));
    assert.match(await browser.run(`return document.querySelector("tr.chosen").textContent`), new RegExp(text.slice(7, 11)));
    await browser.run("history.back()");
    await untilMatrix();
  }
  const { x, y } = await browser.run(CELL, 3, 2, 0);
  await point(x, y);
  assert.match((await texts(".graph > .hint"))[0], /^A mark is an edge from the module of its row/);
});

shown("marks have the colours of kinds, a click in the legend hides them, and the filter fades them", async () => {
  await open(`${report(folderOf({ "a.js": `import "./b.js";\nimport("./c.js");`, "b.js": "", "c.js": "" }))}#matrix-0`);
  await untilMatrix();
  const read = (/** @type {number} */ column) => browser.run(`
    const place = (function () { ${CELL} }).call(null, ...arguments);
    const canvas = document.querySelector(".drawing canvas");
    const { left, top } = canvas.getBoundingClientRect();
    return new Promise((resolve) => requestAnimationFrame(() => requestAnimationFrame(() => {
      const [x, y] = [(place.x - left) * devicePixelRatio, (place.y - top) * devicePixelRatio];
      const pen = new OffscreenCanvas(1, 1).getContext("2d", { willReadFrequently: true });
      pen.drawImage(canvas, x, y, 1, 1, 0, 0, 1, 1);
      resolve([...pen.getImageData(0, 0, 1, 1).data].join());
    })));
  `, 3, 0, column);
  const [first, second] = [await read(1), await read(2)];
  // The light colours of imports and of import(..), in whichever order the two modules are.
  assert.deepEqual(new Set([first, second]), new Set(["11,95,180,255", "179,63,0,255"]));
  await browser.click('.legend [data-kind="static"]');
  const [hidden] = [first, second].map((colour, at) => (colour === "11,95,180,255" ? at + 1 : 0)).filter((at) => at > 0);
  assert.notEqual(await read(hidden), "11,95,180,255");
  await browser.click('.legend [data-kind="static"]');
  assert.equal(await read(hidden), "11,95,180,255");
  await browser.type("/");
  await browser.type("c.js");
  await browser.until(`return document.querySelector(".shown").textContent.startsWith("1 of")`);
  assert.notEqual(await read(1), first);
  assert.notEqual(await read(2), second);
});

shown("the neighbourhood of a module is whole: each box has an edge, and one stands for those that are too many", async () => {
  await open(`${flat}#near-0`);
  const names = await nodeNames();
  const more = names.filter((name) => /^\d+ more modules$/.test(name)).map((name) => Number.parseInt(name, 10));
  // m0.js, the 40 that it leads to, and the 159 that lead to it.
  assert.equal(names.length - more.length + more.reduce((sum, count) => sum + count, 0), 200);
  const alone = await browser.run(`
    const ends = new Set([...document.querySelectorAll(".edges .edge")].flatMap(({ dataset }) => [dataset.from, dataset.to]));
    return [...document.querySelectorAll(".node")].filter(({ dataset }) => !ends.has(dataset.id)).map((each) => each.textContent);
  `);
  assert.deepEqual(alone, []);
  assert.equal(await browser.run(`return document.querySelector(".chosen-node").getAttribute("aria-label")`), "m0.js");
  const sizes = await browser.run(`
    return [...document.querySelectorAll(".node text")].map((each) => parseFloat(getComputedStyle(each).fontSize) * each.getScreenCTM().a);
  `);
  assert.ok(Math.min(...sizes) >= 11, String(Math.min(...sizes)));
});

shown("a neighbourhood has all edges between its modules, and grows by steps", async () => {
  const files = {
    "a.js": `import "./b.js";\nimport "./c.js";`, "b.js": `import "./c.js";`, "c.js": `import "./d.js";`, "d.js": `import "./e.js";`,
    "e.js": "", "top.js": `import "./a.js";`, "other.js": `import "./e.js";`,
  };
  await open(report(folderOf(files)));
  await browser.run(`[...document.querySelectorAll(".rows a")].find(({ title }) => title === "b.js").click()`);
  await untilModule("b.js");
  await browser.click(".links a");
  await browser.until(`return document.querySelectorAll(".node").length === 3`);
  assert.deepEqual((await texts(".edge title")).sort(), ["a.js → b.js: static", "a.js → c.js: static", "b.js → c.js: static"]);
  await browser.click('.step[aria-label="one step more of what it leads to"]');
  await browser.until(`return document.querySelectorAll(".node").length === 4`);
  await browser.click('.step[aria-label="one step more of what leads to it"]');
  await browser.until(`return document.querySelectorAll(".node").length === 5`);
  assert.deepEqual((await nodeNames()).sort(), ["a.js", "b.js", "c.js", "d.js", "top.js"]);
  assert.match(await browser.run("return location.hash"), /^#near-\d+-2-2$/);
});

shown("a folder's neighbours are whole: those that are too many are one box with all their edges", async () => {
  const users = Object.fromEntries(Array.from({ length: 30 }, (_, at) => [`u${at}.js`, `import "./lib/a.js";`]));
  await open(report(folderOf({ ...users, "lib/a.js": "", "lib/b.js": `import "./a.js";`, "x/one.js": `import "../lib/a.js";`, "x/two.js": "" })));
  await go("#folder-1");
  await browser.until(`return document.querySelector('.frame-title[aria-label="lib/: 2 modules"]') !== null`);
  const titles = (await texts(".edge title")).filter((title) => title.includes("→ lib/: 2 modules"));
  const count = titles.reduce((sum, title) => sum + Number(/static(?: \((\d+)\))?$/.exec(title)?.[1] ?? 1), 0);
  assert.equal(count, 31);
});

shown("coming back keeps the layout, its place and its scale, after a module, another figure and the filter", async () => {
  await open(`${flat}#near-5`);
  const before = await place();
  await browser.run(`document.querySelector(".drawing").focus()`);
  await browser.type(`++${KEYS.left}`);
  await untilMoved(before);
  await browser.run(`document.querySelector(".edges .edge").dataset.mine = "kept"`);
  const moved = await place();
  await go("#module-5");
  await browser.until(`return document.querySelector(".module") !== null`);
  await browser.run("history.back()");
  await browser.until(`return document.querySelector('[data-mine="kept"]') !== null`);
  assert.deepEqual(await place(), moved);
  await go("#matrix-0");
  await untilMatrix();
  await browser.type("/");
  await browser.type("m1");
  await go("#near-5");
  await browser.until(`return document.querySelector('[data-mine="kept"]') !== null`);
  assert.deepEqual(await place(), moved);
  // The filter and hidden kinds are those of now.
  assert.ok(await browser.run(`return document.querySelectorAll(".node.left-out").length`) > 0);
});

shown("coming back from a module the page is scrolled as before", async () => {
  await open(flat);
  await untilMatrix();
  await browser.run("scrollTo(0, 400)");
  await browser.until("return scrollY === 400");
  await go("#module-3");
  await browser.until(`return document.querySelector(".module") !== null && scrollY === 0`);
  await browser.run("history.back()");
  await browser.until("return scrollY === 400");
});

shown("the tabs lead to the same folder", async () => {
  const files = { ...Object.fromEntries(["a", "b"].flatMap((folder) => [[`${folder}/x.js`, `import "./y.js";`], [`${folder}/y.js`, ""]])), "z.js": "" };
  await open(`${report(folderOf(files))}#folder-2`);
  await browser.click('.tabs [data-figure="matrix"]');
  await untilMatrix();
  assert.equal(await matrixLabel(), "matrix of 2 modules and 1 edge");
  assert.equal((await texts(".crumbs a")).at(-1), "b");
  assert.equal(await browser.run("return location.hash"), "#matrix-2");
  await browser.click('.tabs [data-figure="folder"]');
  await browser.until(`return location.hash === "#folder-2" && document.querySelectorAll(".node").length === 2`);
});
