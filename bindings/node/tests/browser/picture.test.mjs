/** What the pictures of a report have to be: whole, readable, with cycles and the classes of the unreached. */

import assert from "node:assert/strict";
import { join } from "node:path";

import { folderOf } from "../run_commands.mjs";
import { madeReport } from "./made_project.mjs";
import { browser, exampleReport, items, open, report, shown, skip, texts } from "./session.mjs";

/** Texts of nodes, boxes and counts that aren't inside their rectangles, in the drawing that is open. */
const TEXTS_OUT = `
  return [...document.querySelectorAll(".node, .frame, .edge-count")].flatMap((each) => {
    const outer = each.querySelector("rect").getBoundingClientRect();
    const text = each.querySelector("text");
    const inner = text.getBoundingClientRect();
    const isIn = inner.left >= outer.left - 0.5 && inner.right <= outer.right + 0.5;
    return isIn ? [] : [text.textContent];
  });
`;

/** Counts of edges that overlap. */
const COUNTS_OVER = `
  const counts = [...document.querySelectorAll(".edge-count rect")].map((each) => each.getBoundingClientRect());
  return counts.flatMap((one, at) => counts.slice(at + 1).filter((other) => {
    return one.left < other.right - 0.5 && other.left < one.right - 0.5 && one.top < other.bottom - 0.5 && other.top < one.bottom - 0.5;
  }).map(({ left, top }) => [left, top]));
`;

/** Nodes that aren't whole in the box of the drawing. */
const NODES_OUT = `
  const outer = document.querySelector(".drawing").getBoundingClientRect();
  return [...document.querySelectorAll(".node")].flatMap((each) => {
    const { left, right, top, bottom } = each.getBoundingClientRect();
    const isIn = left >= outer.left && right <= outer.right && top >= outer.top && bottom <= outer.bottom;
    return isIn ? [] : [each.getAttribute("aria-label")];
  });
`;

/** `src/main.ts` leads to two cycles, one of what runs and one that types close. */
const PROJECT = {
  "src/main.ts": `import "./a/one";\nimport(\`./pages/\${x}.ts\`);\nimport type { T } from "./types";\n`,
  "src/a/one.ts": `import "../b/two";\nimport { three } from "./three";\n`,
  "src/a/three.ts": `import type { One } from "./one";\n`,
  "src/b/two.ts": `import "../a/one";\nimport "../__proto__";\n`,
  "src/pages/a.ts": "", "src/types.ts": "export type T = 1;\n", "src/dead.ts": "", "src/__proto__.js": "// eight\n",
  "src/closed/x/one.ts": `import "./two";`, "src/closed/x/two.ts": `import "./one";`,
};

const folder = folderOf(PROJECT);
const project = skip ? "" : report(folder, ["--entry", join(folder, "src/main.ts")]);

/** @param {string} path */
const classesOf = (path) => browser.run(`
  return document.querySelector('.node[aria-label="' + arguments[0] + '"]').getAttribute("class").split(" ").slice(1).sort();
`, path);

shown("cycles have colours in the graph, those of what runs and those that types close", async () => {
  await open(project);
  const halos = await browser.run(`
    return [...document.querySelectorAll(".halo")].map((each) => each.getAttribute("class") + " " +
      document.querySelector('.edge[data-from="' + each.dataset.from + '"][data-to="' + each.dataset.to + '"] title').textContent).sort();
  `);
  assert.deepEqual(halos, [
    "halo in-run a/: 2 modules → b/: 1 module: static", "halo in-run b/: 1 module → a/: 2 modules: static",
    "halo in-run closed/x/one.ts → closed/x/two.ts: static", "halo in-run closed/x/two.ts → closed/x/one.ts: static",
    "halo in-types a/one.ts → a/three.ts: static", "halo in-types a/three.ts → a/one.ts: type",
  ].map((text) => text.replaceAll(/ (?=(?:a|b|closed)\/)/g, " src/")));
  assert.deepEqual(await classesOf("src/a/one.ts"), ["cyclic", "type-cyclic"]);
  const colours = await browser.run(`
    return [...document.querySelectorAll(".halo, .edge")].map((each) => getComputedStyle(each).stroke);
  `);
  assert.ok(new Set(colours).size >= 4);
  const legend = await texts(".legend li");
  assert.ok(["cycle", "cycle of types"].every((each) => legend.includes(each)), String(legend));
});

shown("the classes of the unreached have lists, states and looks of their own", async () => {
  await open(project);
  assert.deepEqual(await items("unreached"), ["src/closed/x/one.ts named by 1 place", "src/closed/x/two.ts named by 1 place", "src/dead.ts"]);
  assert.deepEqual(await items("mayBeReached"), ["src/pages/a.ts a partly known argument ./pages/${..}.ts src/main.ts:2"]);
  assert.deepEqual(await items("byTypes"), ["src/types.ts ./types src/main.ts:3"]);
  for (const [path, state] of [["src/dead.ts", "unreached"], ["src/pages/a.ts", "may-be-reached"], ["src/types.ts", "by-types"]]) {
    assert.deepEqual(await classesOf(path), [state]);
  }
  const looks = await browser.run(`
    return ["unreached", "may-be-reached", "by-types", "cyclic"].map((state) => {
      const { strokeDasharray, stroke } = getComputedStyle(document.querySelector(".node." + state + " rect"));
      return strokeDasharray + " " + stroke;
    });
  `);
  assert.equal(new Set(looks).size, 4);
});

shown("unreached and may be reached differ by shape, fill and colour, in the legend too, light and dark", async () => {
  for (const value of ["light", "dark"]) {
    await browser.command("Emulation.setEmulatedMedia", { features: [{ name: "prefers-color-scheme", value }] });
    await open(project);
    const [dead, maybe] = await browser.run(`
      return ["unreached", "may-be-reached"].map((state) => {
        const rectangle = document.querySelector(".node." + state + ":not(.cyclic) rect");
        const { fill, stroke, rx } = getComputedStyle(rectangle);
        const swatch = getComputedStyle(document.querySelector(".swatch." + state));
        return { fill, stroke, rx: rectangle.getAttribute("rx"), colour: swatch.borderTopColor, ground: swatch.backgroundImage };
      });
    `);
    for (const member of ["fill", "stroke", "rx", "colour", "ground"]) {
      assert.notEqual(dead[member], maybe[member], `${member} ${value}`);
    }
    assert.deepEqual([dead.colour, maybe.colour], [dead.stroke, maybe.stroke]);
  }
  await browser.command("Emulation.setEmulatedMedia", { features: [] });
});

shown("a module named __proto__ is shown, and sizes have what is run too", async () => {
  await open(project);
  const titles = await browser.run(`
    return ["src/__proto__.js", "src/b/two.ts"].map((path) => {
      return document.querySelector('.node[aria-label="' + path + '"] title').textContent;
    });
  `);
  const sizes = ["src/a/one.ts", "src/a/three.ts", "src/b/two.ts", "src/__proto__.js"].map((path) => PROJECT[/** @type {keyof PROJECT} */ (path)].length);
  const all = sizes.reduce((sum, size) => sum + size, 0);
  assert.deepEqual(titles, [
    "src/__proto__.js: 9 B", `src/b/two.ts: ${sizes[2]} B, ${all} B with the 3 modules that it runs`,
  ]);
  await browser.run(`[...document.querySelectorAll(".rows a")].find(({ title }) => title === "src/b/two.ts").click()`);
  await browser.until(`return document.querySelector(".module .links .count") !== null`);
  assert.equal((await texts(".module .links .count"))[0], `${sizes[2]} B, ${all} B with the 3 modules that it runs`);
});

shown("no text is out of its box, in small graphs and in large ones, while the filter counts too", async () => {
  for (const page of [exampleReport(), project, madeReport(600)]) {
    await open(page);
    assert.deepEqual(await browser.run(TEXTS_OUT), []);
    await browser.type("/");
    await browser.type("o");
    await browser.until(`return document.querySelector(".shown").textContent.includes(" of ")`);
    assert.deepEqual(await browser.run(TEXTS_OUT), []);
  }
});

shown("counts of edges don't overlap", async () => {
  for (const count of [140, 600]) {
    await open(madeReport(count));
    assert.ok((await texts(".edge-count")).length > 5);
    assert.deepEqual(await browser.run(COUNTS_OVER), []);
  }
});

shown("of a large cycle the path that is marked is seen when the cycle opens", async () => {
  await open(`${madeReport(140)}#cycle-0`);
  assert.ok((await browser.run(NODES_OUT)).length > 0);
  const far = await browser.run(`
    const outer = document.querySelector(".drawing").getBoundingClientRect();
    const { left, right, top, bottom } = document.querySelector(".edge.marked").getBoundingClientRect();
    return Math.min(left - outer.left, outer.right - right, top - outer.top, outer.bottom - bottom);
  `);
  assert.ok(far >= 0, String(far));
});

shown("a word is there while a graph is drawn", async () => {
  await browser.open("about:blank");
  await browser.open(madeReport(600));
  const word = await browser.run(`
    location.hash = "#sizes-0";
    await new Promise((resolve) => addEventListener("hashchange", resolve, { once: true }));
    location.hash = "#folder-0";
    await new Promise((resolve) => setTimeout(resolve));
    return document.querySelector(".drawing").textContent;
  `);
  assert.equal(word, "Drawing …");
  await browser.until(`return document.querySelector(".drawing svg") !== null`);
  assert.deepEqual(await texts(".waiting"), []);
});
