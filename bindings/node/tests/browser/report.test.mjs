/** The report in a browser, as a person sees and uses it: modules, lists and names. */

import assert from "node:assert/strict";
import { readFileSync } from "node:fs";
import { join } from "node:path";
import { test } from "node:test";

import { folderOf } from "../run_commands.mjs";
import { KEYS } from "./browser.mjs";
import {
  EXAMPLE, browser, exampleReport, hasProgram, items, listed, nodeNames, open, openModule, report, shown, skip, texts, untilModule,
  untilText,
} from "./session.mjs";

const example = exampleReport();

/** @param {string} path of a module of the example */
const readExample = (path) => readFileSync(join(EXAMPLE, path), "utf8");

/** The marks of the open module: each with its kind and the text of its pieces. */
const marks = () => browser.run(`
  const found = new Map();
  for (const piece of document.querySelectorAll("pre .mark")) {
    for (const row of piece.dataset.rows.split(" ")) {
      const key = row + (piece.classList.contains("pragma") ? " pragma" : "");
      const mark = found.get(key) ?? { kind: piece.dataset.kind, text: "" };
      mark.text += piece.textContent;
      found.set(key, mark);
    }
  }
  return [...found.values()].map(({ kind, text }) => kind + " " + text);
`);

/** What is marked in each module of the example, as its source spells it. */
const MARKS = {
  "src/forecast.ts": [`type "./report.js"`, `static "./station.js"`],
  "src/format/numbers.js": [`jsdoc "../report.js"`, `static "./units.js"`, `jsdoc "../report.js"`],
  "src/format/units.ts": [`type "../report.js"`],
  "src/globals.d.ts": [],
  "src/legacy/archive.cjs": [
    `require "node:fs"`, `require "./table.cjs"`, `require "./years/" + year + ".cjs"`, "require name",
  ],
  "src/legacy/archive_types.d.ts": [`type "../report.js"`],
  "src/legacy/table.cjs": [],
  "src/main.ts": [
    `pragma "./globals.d.ts"`, `static "./settings.js"`, `static "./forecast.js"`, `type "./report.js"`,
    `static "./colours.js"`, `pragma "./legacy/archive_types.d.ts"`, `static "./legacy/archive.cjs"`,
    `static "./format/units.js"`, "dynamic `./messages/${language}.js`", `dynamic "./stations.json"`,
    `dynamic "./page.js"`,
  ],
  "src/messages/de.js": [],
  "src/messages/en.js": [],
  "src/old_forecast.js": [`static "./forecast.js"`],
  "src/page.tsx": ["pragma preact", `type "./report.js"`, `static "./format/numbers.js"`],
  "src/report.ts": [],
  "src/settings.ts": [`static "node:process"`],
  "src/station.ts": [`type "./report.js"`, `static "./forecast.js"`],
};

shown("each module has its text, and its specifiers are marked in it", async () => {
  await open(example);
  assert.deepEqual((await listed()).sort(), Object.keys(MARKS));
  for (const [path, expected] of Object.entries(MARKS)) {
    await openModule(path);
    await untilText(readExample(path));
    const known = hasProgram ? expected : expected.filter((mark) => !mark.startsWith("jsdoc "));
    assert.deepEqual(await marks(), known, path);
    assert.deepEqual((await texts("pre code")).join(""), readExample(path));
  }
});

shown("a table shows what each range names", async () => {
  await open(example);
  await openModule("src/main.ts");
  /** @type {string[][]} */
  const rows = await browser.run(`
    return [...document.querySelectorAll("table tbody tr")].map((row) => [...row.cells].map((cell) => cell.innerText));
  `);
  const flat = rows.map((cells) => cells.map((cell) => cell.replace(/\s+/g, " ").trim()).join(" | "));
  assert.deepEqual(flat, [
    "1 | pragma | ./globals.d.ts as reference path | src/globals.d.ts",
    "4 | static | ./settings.js | src/settings.ts",
    "5 | static | ./forecast.js | src/forecast.ts",
    "6 | type | ./report.js as importType | src/report.ts",
    "7 | static | ./colours.js | not found",
    "9 | static | ./legacy/archive.cjs types ./legacy/archive_types.d.ts → src/legacy/archive_types.d.ts | src/legacy/archive.cjs",
    "11 | static | ./format/units.js as export | src/format/units.ts",
    "14 | dynamic | ./messages/${…}.js | –",
    "15 | dynamic | ./stations.json with type: json | src/stations.json",
    "19 | dynamic | ./page.js | src/page.tsx",
  ]);
});

shown("the lists have what they have to", async () => {
  await open(example);
  assert.deepEqual(await items("missing"), ["./colours.js static src/main.ts:7"]);
  assert.deepEqual(await items("unknown"), ["not known require src/legacy/archive.cjs:8"]);
  assert.deepEqual(await items("partly"), [
    "./years/${…}.cjs require src/legacy/archive.cjs:7", "./messages/${…}.js dynamic src/main.ts:14",
  ]);
  assert.deepEqual(await items("unreached"), ["src/old_forecast.js"]);
  assert.deepEqual(await items("mayBeReached"), ["de", "en"].map((name) => {
    return `src/messages/${name}.js a partly known argument ./messages/\${..}.js src/main.ts:14`;
  }));
  // It has types alone, which run nothing.
  assert.deepEqual((await items("byTypes")).map((text) => text.split(" ")[0]), ["src/report.ts"]);
  assert.deepEqual(await items("cycles"), [
    "src/forecast.ts → src/station.ts → src/forecast.ts show in the graph perhaps by types alone",
  ]);
  assert.deepEqual(await items("faults"), []);
});

shown("clicks lead from the graph to a module, and between marks and rows", async () => {
  await open(example);
  await browser.click('.node[aria-label="src/page.tsx"]');
  await untilModule("src/page.tsx");
  await untilText(readExample("src/page.tsx"));
  await browser.click(`.mark.static`);
  await browser.until(`return document.querySelector("tr.chosen .name")?.textContent === "./format/numbers.js"`);
  await browser.click(`tr[data-row="1"] .place`);
  await browser.until(`return document.querySelector(".mark.chosen")?.textContent === '"./report.js"'`);
  await browser.click(`tr[data-row="2"] .target a`);
  await untilModule("src/format/numbers.js");
  assert.ok((await texts(".importers li")).some((text) => text.startsWith("src/page.tsx")));
  await browser.run("history.back()");
  await untilModule("src/page.tsx");
  await browser.run(`location.hash = ""`);
  // The lists are below the graph, which moves them when it is drawn.
  await browser.until(`return document.querySelector(".drawing svg") !== null`);
  await browser.click("#list-missing li a");
  await untilModule("src/main.ts");
  await browser.until(`return document.querySelector(".mark.chosen")?.textContent === '"./colours.js"'`);
});

/** @param {string} title or label of the element that has the focus then */
const untilFocused = (title) => browser.until(`
  return (document.activeElement.title || document.activeElement.getAttribute("aria-label")) === arguments[0];
`, title);

shown("everything is reached by keyboard", async () => {
  await open(example);
  await browser.type("/");
  await browser.type(`src/format${KEYS.down}${KEYS.down}`);
  await untilFocused("src/format/units.ts");
  await browser.type(KEYS.up);
  await untilFocused("src/format/numbers.js");
  await browser.type(KEYS.enter);
  await untilModule("src/format/numbers.js");
  const chosen = (/** @type {string} */ name) => browser.until(`return document.querySelector("tr.chosen .name")?.textContent === arguments[0]`, name);
  await browser.type(hasProgram ? "nn" : "n");
  await chosen("./units.js");
  await browser.type("o");
  await untilModule("src/format/units.ts");
  await browser.type("p");
  await chosen("../report.js");
  await browser.type("g");
  await browser.until(`return document.querySelector(".graph svg.modules") !== null`);
});

shown("after Enter in the filter the focus is in the module, so that each key does what the page says of it", async () => {
  await open(example);
  await browser.type(`/station.ts${KEYS.enter}`);
  await untilModule("src/station.ts");
  await browser.type("n");
  await browser.until(`return document.querySelector("tr.chosen .name")?.textContent === "./report.js"`);
  assert.equal(await browser.run(`return document.querySelector("#filter").value`), "station.ts");
  await browser.type("no");
  await untilModule("src/forecast.ts");
  await browser.type("/");
  await untilFocused("Filter modules");
});

shown("why a module is there is the shortest way from an entry, with the lines", async () => {
  await open(example);
  await openModule("src/legacy/table.cjs");
  const steps = async () => {
    await browser.until(`return [...document.querySelectorAll(".why li")].every((each) => each.querySelector(".name"))`);
    return (await texts(".why li")).map((text) => text.replace(/\s+/g, " "));
  };
  assert.deepEqual(await steps(), [
    "src/main.ts:9 static ./legacy/archive.cjs", "src/legacy/archive.cjs:4 require ./table.cjs",
  ]);
  await openModule("src/main.ts");
  assert.match((await texts(".why")).join(), /It is an entry\./);
  await openModule("src/old_forecast.js");
  assert.match((await texts(".why")).join(), /No entry leads to it\./);
  await openModule("src/globals.d.ts");
  assert.deepEqual(await steps(), ["src/main.ts:1 type ./globals.d.ts"]);
  assert.match((await texts(".why")).join(), /Only types or comments lead to it/);
});

/** A package that is installed with a version, one that isn't and has a range, and what else there is. */
const OUTSIDE = {
  "package.json": `{"name":"app","dependencies":{"absent":"^2.1.0"}}`,
  "node_modules/here/package.json": `{"name":"here","version":"3.4.5","main":"index.js"}`,
  "node_modules/here/index.js": "",
  "src/a.js": `import "here";\nimport "absent/part";\nimport fs from "node:fs";\nimport "./style.css";\nimport "./none.js";\n`,
  "src/b.js": `import "here";\nimport "fs";\n`,
  "src/style.css": "",
};

shown("what isn't of the report is listed by class, and only what is missing is red", async () => {
  const folder = folderOf(OUTSIDE);
  await open(report(join(folder, "src")));
  const flat = async (/** @type {string} */ list) => (await items(list)).map((text) => text.replace(/\s+/g, " "));
  assert.deepEqual(await flat("packages"), ["absent ^2.1.0, not installed 1 place", "here 3.4.5 2 places"]);
  assert.deepEqual(await flat("builtins"), ["fs 2 places"]);
  assert.deepEqual(await flat("missing"), ["./none.js static a.js:5"]);
  assert.equal((await flat("assets")).length, 1);
  const red = await browser.run(`
    const warn = getComputedStyle(document.querySelector("#list-missing h2")).color;
    return [...document.querySelectorAll(".lists h2, .summary a")]
      .filter((each) => getComputedStyle(each).color === warn).map((each) => each.textContent);
  `);
  assert.deepEqual(red, ["1 missing", "Missing 1"]);
  await browser.run(`document.querySelectorAll("#list-packages summary")[1].click()`);
  await browser.until(`return document.querySelectorAll("#list-packages details[open] li").length === 2`);
  assert.deepEqual(await texts("#list-packages details[open] li"), ["a.js:1", "b.js:1"]);
});

/** Sources and names that are made to break a page. */
const HOSTILE = {
  "a.js": `import "</script><script>window.hacked = 1</script>";\n`,
  "b.js": `import "<!--<script>"; // ]]> <img src=x onerror="window.hacked = 1">\n`,
  "c.js": `import '"><b onclick="x">';\nimport "\\u003c/script>";\n`,
  "d.js": "import(`${'`'}`);\n",
  "e.js": `\ufeff/* \u2028 \u202e \u0007 😀\t*/ import "./f😀.js";\r\n\r\nimport\t"./&lt;g>.js";\r\n`,
  "<img src=x onerror=window.hacked=1>.js": `import "./a.js";\n`,
  "&lt;b&gt; \"'.js": `import "./a.js";`,
  "new\nline\tand\u202etab.js": `import "./a.js";`,
  "<u onclick=window.hacked=1>x/<s>i.js": `import "<s>package";\nimport "./other.js";\n`,
  "<u onclick=window.hacked=1>x/other.js": `import "./<s>i.js";\n`,
  "h.ts": `import {} from "__proto__";\nimport x from "constructor" assert { "<b>": "</style>" };\n`,
};

/** Elements that only markup in a text could have made. */
const strangers = () => browser.run(`return document.querySelectorAll("img, b, u, s, body script, a[onclick]").length`);

shown("texts and names that are made to break the page are shown as they are", async () => {
  const page = report(folderOf(HOSTILE));
  await open(page);
  assert.deepEqual((await nodeNames()).filter((name) => !name.endsWith("modules")).sort(), (await listed()).sort());
  const folder = "<u onclick=window.hacked=1>x";
  assert.deepEqual(await texts(".frame title"), [`${folder}/: 2 modules`]);
  assert.deepEqual(await texts("#list-packages .name"), [
    '"><b onclick="x">', "<", "<s>package", "__proto__", "constructor",
  ]);
  for (const hash of ["", "#sizes-0-bytes", "#cycle-0", "#layers-0", "#list-packages"]) {
    await open(`${page}${hash}`);
    assert.equal(await strangers(), 0, hash);
  }
  const expected = {
    [`${folder}/<s>i.js`]: [`static "<s>package"`, `static "./other.js"`],
    [`${folder}/other.js`]: [`static "./<s>i.js"`],
    "a.js": [`static "</script><script>window.hacked = 1</script>"`],
    "b.js": [`static "<!--<script>"`],
    "c.js": [`static '"><b onclick="x">'`, `static "\\u003c/script>"`],
    "d.js": ["dynamic `${'`'}`"],
    "e.js": [`static "./f😀.js"`, `static "./&lt;g>.js"`],
    "h.ts": [`static "__proto__"`, `static "constructor"`],
  };
  for (const [path, text] of Object.entries(HOSTILE)) {
    await openModule(path, path.replace("\n", "[LF]").replace("\t", "[TAB]").replace("\u202e", "[U+202E]"));
    await untilText(text);
    assert.equal((await texts("pre code")).join(""), text, path);
    assert.deepEqual(await marks(), expected[path] ?? [`static "./a.js"`], path);
    assert.equal(await strangers(), 0, path);
  }
  assert.equal(await browser.run("return window.hacked ?? null"), null);
});

shown("a report of one module has its picture, also at addresses of what isn't there", async () => {
  const page = report(folderOf({ "only.js": "" }));
  for (const hash of ["", "#folder-7", "#flat-7", "#layers-7", "#cycle-7", "#more-7", "#nothing-7", "#module-7"]) {
    await open(page + hash);
  }
  assert.deepEqual(await texts(".node text"), ["only.js"]);
});

shown("a line feed and a tab in a file's name are shown by their names", async () => {
  await open(report(folderOf({ "a\nb.js": "", "c\td.js": "", "e.js": "" })));
  assert.deepEqual(await texts(".node text"), ["a[LF]b.js", "c[TAB]d.js", "e.js"]);
  const names = await browser.run(`return [...document.querySelectorAll(".rows .control")].map((each) => each.dataset.name)`);
  assert.deepEqual(names, ["LF", "TAB"]);
  assert.deepEqual(await listed(), ["a[LF]b.js", "c[TAB]d.js", "e.js"]);
});

shown("what isn't seen in a text is named", async () => {
  await open(report(folderOf(HOSTILE)));
  await openModule("e.js");
  await untilText(HOSTILE["e.js"]);
  const names = await browser.run(`return [...document.querySelectorAll("pre .control")].map((each) => each.dataset.name)`);
  assert.deepEqual(names, ["BOM", "LS", "U+202E", "U+0007"]);
  assert.equal((await texts(".line")).length, 3);
});

shown("a syntax error is listed with its place, and marked there", async () => {
  const text = "let a = 1;\nlet b = ;\n";
  const folder = folderOf({ "a.ts": text, "b.ts": Buffer.of(0xff) });
  await open(report(folder, [], 1));
  assert.deepEqual(await items("faults"), [
    "a.ts:2:9 Syntax expected an expression", "b.ts Input the file isn't UTF-8",
  ]);
  await openModule("a.ts");
  await untilText(text);
  assert.deepEqual(await marks(), ["fault ;"]);
  await openModule("b.ts");
  assert.deepEqual(await texts("pre"), []);
});

/** More than the 4.5 that WCAG 2.2 asks of text, criterion 1.4.3. */
const LEAST_CONTRAST = 5.3;

/** The page's colours of texts. */
const COLOURS = ["text", "quiet", "warn", "static", "dynamic", "type", "require", "jsdoc", "pragma"];

/** The script of `contrastsOf`. */
const CONTRASTS = `
  const style = getComputedStyle(document.documentElement);
  const canvas = document.createElement("canvas").getContext("2d", { willReadFrequently: true });
  const luminance = (name) => {
    canvas.fillStyle = style.getPropertyValue(name) || name;
    canvas.fillRect(0, 0, 1, 1);
    const [red, green, blue] = [...canvas.getImageData(0, 0, 1, 1).data].slice(0, 3)
      .map((value) => value / 255)
      .map((value) => (value <= 0.04045 ? value / 12.92 : ((value + 0.055) / 1.055) ** 2.4));
    return 0.2126 * red + 0.7152 * green + 0.0722 * blue;
  };
  return arguments[0].map((name) => {
    const [dark, light] = [luminance(name), luminance(arguments[1])].sort((one, other) => one - other);
    return (light + 0.05) / (dark + 0.05);
  });
`;

/**
 * @param {string[]} colours
 * @param {string} ground
 * @returns {Promise<number[]>} the contrast of each colour with the ground
 */
function contrastsOf(colours, ground) {
  return browser.run(CONTRASTS, colours, ground);
}

shown("it is readable in light and dark", async () => {
  const pages = new Set();
  for (const value of ["light", "dark"]) {
    await browser.command("Emulation.setEmulatedMedia", { features: [{ name: "prefers-color-scheme", value }] });
    await open(example);
    pages.add(await browser.run("return getComputedStyle(document.documentElement).backgroundColor"));
    const contrasts = await contrastsOf(COLOURS.map((name) => `--${name}`), "--page");
    contrasts.forEach((contrast, at) => assert.ok(contrast >= LEAST_CONTRAST, `${COLOURS[at]}, ${value}: ${contrast}`));
  }
  assert.equal(pages.size, 2);
  await browser.command("Emulation.setEmulatedMedia", { features: [] });
});

shown("the graph is readable in colours of a person's own, light and dark", async () => {
  for (const value of ["light", "dark"]) {
    const features = [{ name: "forced-colors", value: "active" }, { name: "prefers-color-scheme", value }];
    await browser.command("Emulation.setEmulatedMedia", { features });
    await open(example);
    const colours = await browser.run(`
      return [...document.querySelectorAll(".node text, .frame text, .edge-count text, .area")].map((each) => getComputedStyle(each).fill);
    `);
    const contrasts = await contrastsOf([...new Set(colours)], "Canvas");
    contrasts.forEach((contrast) => assert.ok(contrast >= LEAST_CONTRAST, `${value}: ${contrast}`));
  }
  await browser.command("Emulation.setEmulatedMedia", { features: [] });
});

shown("labels of the graph and of the picture of sizes are readable on what is below them", async () => {
  for (const value of ["light", "dark"]) {
    await browser.command("Emulation.setEmulatedMedia", { features: [{ name: "prefers-color-scheme", value }] });
    await open(example);
    /** @type {[string, string][]} */
    const pairs = await browser.run(`
      const style = (element, name) => getComputedStyle(element)[name];
      // Of a pattern what counts is the colour of its lines, which is nearer to that of texts.
      const lines = style(document.querySelector(".hatch"), "stroke");
      return [...document.querySelectorAll(".node, .edge-count")].map((each) => {
        const fill = style(each.querySelector("rect"), "fill");
        return [style(each.querySelector("text"), "fill"), fill.startsWith("url") ? lines : fill];
      });
    `);
    await browser.run(`location.hash = "#sizes-0-bytes"`);
    await browser.until(`return document.querySelector(".area") !== null`);
    pairs.push(...await browser.run(`
      return [...document.querySelectorAll(".area")].map((each) => [getComputedStyle(each).color, getComputedStyle(each).backgroundColor]);
    `));
    for (const pair of new Set(pairs.map((each) => each.join(" on ")))) {
      const [text, ground] = pair.split(" on ");
      const [contrast] = await contrastsOf([text], ground);
      assert.ok(contrast >= LEAST_CONTRAST, `${value}, ${pair}: ${contrast}`);
    }
  }
  await browser.command("Emulation.setEmulatedMedia", { features: [] });
});

shown("on paper it is dark on white, without what is clicked, and nothing is cut off", async () => {
  await open(example);
  await openModule("src/main.ts");
  await untilText(readExample("src/main.ts"));
  const features = [{ name: "prefers-color-scheme", value: "dark" }];
  await browser.command("Emulation.setEmulatedMedia", { media: "print", features });
  const contrasts = await contrastsOf(COLOURS.map((name) => `--${name}`), "#fff");
  contrasts.forEach((contrast, at) => assert.ok(contrast >= LEAST_CONTRAST, `${COLOURS[at]}: ${contrast}`));
  const { aside, overflow, whole } = await browser.run(`
    const pre = document.querySelector("pre");
    return {
      aside: getComputedStyle(document.querySelector("aside")).display,
      overflow: getComputedStyle(pre).overflow,
      whole: pre.scrollWidth <= document.documentElement.clientWidth,
    };
  `);
  assert.deepEqual({ aside, overflow, whole }, { aside: "none", overflow: "visible", whole: true });
  await browser.command("Emulation.setEmulatedMedia", { media: "", features: [] });
});

test("scripts other than its own don't run, and markup of a text is refused", { skip }, async () => {
  await open(example);
  const ran = await browser.run(`
    const image = document.createElement("img");
    image.setAttribute("src", "data:,");
    const refused = [];
    for (const act of [
      () => (document.createElement("script").textContent = "window.other = 1"),
      () => (document.createElement("div").innerHTML = "<img src=x onerror='window.other = 2'>"),
      () => image.setAttribute("onerror", "window.other = 3"),
      () => new Worker("data:text/javascript,"),
    ]) {
      try {
        act();
      } catch ({ name }) {
        refused.push(name);
      }
    }
    document.body.append(image);
    return refused;
  `);
  assert.deepEqual(ran, ["TypeError", "TypeError", "TypeError", "TypeError"]);
  await browser.until("return document.images.length === 1");
  assert.equal(await browser.run("return window.other ?? null"), null);
  const refused = await browser.log("browser");
  assert.ok(refused.some(({ message }) => /Content Security Policy|TrustedHTML|Trusted/.test(message)));
  await browser.log("performance");
});
