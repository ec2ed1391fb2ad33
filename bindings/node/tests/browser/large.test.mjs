/** Reports of four sizes in a browser, with pictures of them; and what is drawn of a large one. */

import assert from "node:assert/strict";
import { mkdirSync, readFileSync, writeFileSync } from "node:fs";
import { join } from "node:path";
import { fileURLToPath } from "node:url";

import { KEYS } from "./browser.mjs";
import { madeReport } from "./made_project.mjs";
import { browser, exampleReport, go, listed, open, shown, skip, texts, untilModule } from "./session.mjs";

/** Where the pictures are put, so that who changes the page looks at them. */
const PICTURES = fileURLToPath(new URL("../../../../build/report_pictures/", import.meta.url));

/** The least height of a label's letters, in pixels. */
const READABLE = 11;

const large = skip ? "" : madeReport(20_000);
const PAGES = skip ? {} : {
  15: exampleReport(), 140: madeReport(140), "640-in-one-folder": madeReport(640, { isFlat: true }), 20_000: large,
};

/** The views of which pictures are made. */
const VIEWS = { graph: "", near: "#near-7", matrix: "#matrix-0", sizes: "#sizes-0-bytes", module: "#module-7" };

for (const [count, page] of Object.entries(PAGES)) {
  shown(`the first view of ${count} modules is read, in light and dark; pictures of it are in build/`, async () => {
    mkdirSync(PICTURES, { recursive: true });
    for (const value of ["light", "dark"]) {
      await browser.command("Emulation.setEmulatedMedia", { features: [{ name: "prefers-color-scheme", value }] });
      for (const [view, hash] of Object.entries(VIEWS)) {
        await open(page + hash);
        const file = join(PICTURES, `${count}-${view}-${value}.png`);
        writeFileSync(file, await browser.picture());
        if (view === "near" || (view === "graph" && !count.startsWith("640"))) {
          await assertReadable(view === "near" ? 1 : 5);
        }
      }
    }
    await browser.command("Emulation.setEmulatedMedia", { features: [] });
  });
}

/**
 * Each label can be read, and none covers another one.
 * @param {number} least how many there are at least
 */
async function assertReadable(least) {
  /** @type {{ sizes: number[], boxes: DOMRect[] }} */
  const { sizes, boxes } = await browser.run(`
    const labels = [...document.querySelectorAll(".node text, .frame text")];
    const nodes = [...document.querySelectorAll(".node rect")];
    return {
      sizes: labels.map((each) => parseFloat(getComputedStyle(each).fontSize) * each.getScreenCTM().a),
      boxes: nodes.map((each) => each.getBoundingClientRect().toJSON()),
    };
  `);
  assert.ok(sizes.length >= least, `${sizes.length} labels`);
  assert.ok(Math.min(...sizes) >= READABLE, String(Math.min(...sizes)));
  boxes.forEach((one, at) => boxes.slice(0, at).forEach((other) => {
    const isApart = one.right <= other.left || other.right <= one.left || one.bottom <= other.top || other.bottom <= one.top;
    assert.ok(isApart, JSON.stringify([one, other]));
  }));
}

shown("of 20,000 modules the list makes the rows that are seen, and goes to the last one by a key", async () => {
  await open(large);
  const rows = await listed();
  assert.ok(rows.length > 5 && rows.length < 150, String(rows.length));
  assert.deepEqual(await texts(".shown"), ["20,000 modules"]);
  await browser.run(`document.querySelector("#filter").focus()`);
  await browser.type(`${KEYS.down}${KEYS.end}`);
  await browser.until(`return document.activeElement.parentElement.getAttribute("aria-posinset") === "20000"`);
  const last = await browser.run(`return document.activeElement.dataset.module`);
  assert.ok(last !== undefined && (await listed()).length < 150);
  await browser.type(KEYS.enter);
  await browser.until(`return document.querySelector(".module")?.dataset.module === arguments[0]`, last);
});

shown("of 20,000 modules a drawing has few, and the whole page few elements", async () => {
  await open(large);
  const { nodes, edges, all } = await browser.run(`
    const count = (selector) => document.querySelectorAll(selector).length;
    return { nodes: count(".node"), edges: count(".edges .edge"), all: count("body *") };
  `);
  assert.ok(nodes >= 5 && nodes <= 140, String(nodes));
  assert.ok(edges < 300, String(edges));
  assert.ok(all < 5000, String(all));
});

shown("texts are compressed in the page, and shown when their module is opened", async () => {
  const html = readFileSync(fileURLToPath(large), "utf8");
  assert.equal(html.includes("call();"), false);
  // The texts alone have about 32 MB.
  assert.ok(html.length < 12e6, String(html.length));
  await open(large);
  await go("#module-19999");
  await browser.until(`return document.querySelector("pre code")?.textContent.includes("call();")`);
});

shown("a long list shows its first items, then more as it is scrolled", async () => {
  await open(large);
  const count = () => browser.run(`return document.querySelectorAll("#list-unreached li").length`);
  assert.equal(await count(), 50);
  const all = Number((await texts("#list-unreached .count"))[0].replace(/,/g, ""));
  assert.ok(all > 1000, String(all));
  await browser.run(`document.querySelector("#list-unreached button").click()`);
  await browser.run(`const box = document.querySelector("#list-unreached .long"); box.scrollTop = box.scrollHeight`);
  await browser.until(`return document.querySelectorAll("#list-unreached li").length > 50`);
  assert.ok(await count() < all);
});

shown("the filter finds one of 20,000 modules, and Enter opens it", async () => {
  await open(large);
  await browser.type("/");
  await browser.type("core_12000.js");
  await browser.until(`return document.querySelector(".shown").textContent === "1 of 20,000 modules"`);
  const [path] = await listed();
  await browser.type(KEYS.enter);
  await untilModule(path);
});
