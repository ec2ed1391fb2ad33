/** The page: shows what its address names. */

import { element, nextTask } from "./elements.js";
import { type Folder, folders, root } from "./folders.js";
import { showHidden } from "./graph_legend.js";
import { type Figure, graphView } from "./graph_view.js";
import { listsView, summaryView } from "./lists_view.js";
import { largeFolderView, matrixView } from "./matrix_view.js";
import { ModuleList } from "./module_list.js";
import { choose, moduleView } from "./module_view.js";
import { STEPS, cycleView, nearView } from "./near_view.js";
import { counted, hashOf } from "./pieces.js";
import { paths, report, visible } from "./report.js";
import { longList } from "./reveal.js";
import { sizesView } from "./sizes_view.js";
import type { Matches } from "./filter.js";

/** A number or a name in an address. */
type Word = number | string;

/** What an address names: a module and its row, or a list, or a picture and the words after it. */
interface Address {
  module?: number;
  row?: number;
  list?: string;
  figure?: string;
  words?: Word[];
}

const main = element("main", { tabindex: "-1" });
/** The modules that match the filter. */
let matches: Matches | undefined;
/** The open view: a module's index, or the address of a picture. */
let open: Address = {};
/** Resolved when the open view is complete. */
let whole = Promise.resolve();

/** The overview, once it was shown, and how far it was scrolled. */
const overview: { view?: HTMLElement, scroll: number } = { scroll: 0 };

/** Figures by their addresses, the last shown at the end: who comes back finds them as they were. */
const figures = new Map<string, HTMLElement>();
const MOST_FIGURES = 12;

// The index is read. The list and the view are each made in a task of their own, so that none is long.
await nextTask();
const modules = new ModuleList({
  onFilter: (found) => {
    matches = found;
    main.querySelector<Figure>(".graph")?.onFilter?.(matches);
  },
  onOpen: (module) => {
    location.hash = hashOf(module);
    main.focus({ preventScroll: true });
  },
});

/** The graphs and pictures by the first word of their address; the others are its numbers. */
const FIGURES: Record<string, (words: Word[]) => HTMLElement> = {
  folder: ([word]) => graphView(folderAtWord(word), largeFolderView),
  flat: ([word]) => {
    const folder = folderAtWord(word);
    return folder.index === word && folder.modules.length > 0 ? largeFolderView(folder, true) : wholeGraph();
  },
  matrix: ([word]) => matrixView(folderAtWord(word)),
  more: ([word]) => moreView(folderAtWord(word)),
  near: ([word, into = STEPS.into, from = STEPS.from]) => {
    const module = Number(word);
    return report.edges[module] ? nearView(module, { into: Number(into), from: Number(from) }) : wholeGraph();
  },
  cycle: ([word]) => (report.lists.cycles[Number(word)] ? cycleView(Number(word)) : wholeGraph()),
  sizes: ([word, measure]) => sizesView(folderAtWord(word), String(measure)),
};

/** Returns the folder of a number in an address, else the root. */
const folderAtWord = (word: Word): Folder => folders[Number(word)] ?? root;

const wholeGraph = (): HTMLElement => FIGURES.folder([root.index]);

/** The list of a folder's folders, for a graph that doesn't draw each. */
function moreView(folder: Folder) {
  const item = (each: Folder) => {
    const link = element("a", { href: `#folder-${each.index}` }, `${visible(each.name)}/`);
    return element("li", {}, link, element("span", { class: "count" }, ` ${counted(each.count, "module")}`));
  };
  const list = longList(folder.folders, item);
  list.classList.add("choices");
  const title = element("h2", {}, `Folders of ${visible(folder.path) || report.title}/`);
  return element("section", { class: "graph" }, element("div", { class: "bar" }, title), list);
}

function overviewView() {
  const title = element("h1", {}, `Dependencies of ${report.title}`);
  const head = element("header", {}, title, summaryView());
  const figure = element("div", { class: "figure" });
  return element("article", { class: "overview" }, head, tabs(), figure, listsView());
}

/** Links from the graph of a folder to its matrix, to the picture of its sizes, and back. */
function tabs() {
  const links = [["folder", "Graph"], ["matrix", "Matrix"], ["sizes", "Sizes"]].map(([word, text]) => {
    return element("a", { href: `#${word}-${root.index}`, "data-figure": word }, text);
  });
  return element("nav", { class: "tabs", "aria-label": "pictures" }, ...links);
}

function readAddress(): Address {
  const [what, ...rest] = location.hash.slice(1).split("-");
  const words = rest.map((word) => (/^\d+$/.test(word) ? Number(word) : word));
  if (what === "module" && report.edges[Number(words[0])]) {
    return { module: Number(words[0]), row: words[1] === undefined ? undefined : Number(words[1]) };
  }
  if (what === "list") {
    return { list: rest[0], figure: open.figure ?? "folder", words: open.words ?? [root.index] };
  }
  return Object.hasOwn(FIGURES, what) ? { figure: what, words } : { figure: "folder", words: [root.index] };
}

function show() {
  const asked = readAddress();
  const before = document.activeElement;
  if (asked.module !== undefined) {
    showModule(asked.module, asked.row);
  } else {
    showOverview(asked);
  }
  open = asked;
  // The focus of a removed element goes to the new view.
  if (!before?.isConnected) {
    main.focus({ preventScroll: true });
  }
  document.getElementById(`list-${asked.list}`)?.scrollIntoView();
}

function showModule(module: number, row: number | undefined) {
  if (module !== open.module) {
    const made = moduleView(module);
    whole = made.whole;
    overview.scroll = overview.view?.isConnected ? scrollY : overview.scroll;
    main.replaceChildren(made.view);
    modules.open(module);
    scrollTo(0, 0);
    document.title = titleOf(module);
  }
  whole.then(() => {
    if (readAddress().module === module) {
      choose(main, readAddress().row ?? row);
    }
  });
}

function showOverview({ figure = "folder", words = [] }: Address) {
  if (open.figure === undefined) {
    overview.view ??= overviewView();
    main.replaceChildren(overview.view);
    modules.open(undefined);
    document.title = titleOf(undefined);
  }
  if (open.figure !== figure || String(open.words) !== String(words)) {
    main.querySelector(".figure")?.replaceWith(figureOf(figure, words));
    const figureNow = main.querySelector<Figure>(".graph") as Figure;
    showHidden(figureNow);
    figureNow.onFilter?.(matches);
    figureNow.onShown?.();
    showTabs(figure, words);
  }
  if (open.figure === undefined) {
    scrollTo(0, overview.scroll);
  }
}

/** Returns a figure, which is made unless it is kept whole. */
function figureOf(figure: string, words: Word[]) {
  const key = [figure, ...words].join("-");
  const kept = figures.get(key);
  const view = kept && kept.querySelector(".waiting") === null
    ? kept
    : element("div", { class: "figure" }, FIGURES[figure](words));
  figures.delete(key);
  figures.set(key, view);
  if (figures.size > MOST_FIGURES) {
    figures.delete(figures.keys().next().value as string);
  }
  return view;
}

/** Marks the tab of a figure, and has the others lead to the same folder. */
function showTabs(figure: string, [word]: Word[]) {
  const isOfFolder = ["folder", "flat", "matrix", "sizes"].includes(figure);
  for (const link of main.querySelectorAll<HTMLAnchorElement>(".tabs a")) {
    const own = link.dataset.figure;
    link.toggleAttribute("aria-current", own === (["matrix", "sizes"].includes(figure) ? figure : "folder"));
    link.href = `#${own}-${isOfFolder ? folderAtWord(word).index : root.index}`;
  }
}

function titleOf(module: number | undefined) {
  const title = `Dependencies of ${report.title}`;
  return module === undefined ? title : `${visible(paths[module])} – ${title}`;
}

/** Counts the rows of the open module; its table is there when the view is complete. */
const countRows = () => main.querySelectorAll("table.rows tbody tr").length;

/** The next row of the open module, or the one before. */
function step(by: number) {
  const { module, row } = readAddress();
  const count = countRows();
  if (module !== undefined && count > 0) {
    const next = row === undefined ? (by > 0 ? 0 : count - 1) : (row + by + count) % count;
    location.hash = hashOf(module, next);
  }
}

/** Opens the module that the row of the address leads to. */
function followRow() {
  const target = main.querySelector<HTMLAnchorElement>(`tr[data-row="${readAddress().row}"] .target a`);
  if (target) {
    location.hash = target.hash;
  }
}

const KEYS = new Map<string, () => void>([
  ["/", () => modules.search()],
  ["g", () => (location.hash = "")],
  ["n", () => step(1)],
  ["p", () => step(-1)],
  ["o", followRow],
]);

function onKey(event: KeyboardEvent) {
  const isTyped = event.target instanceof HTMLInputElement;
  if (isTyped || event.ctrlKey || event.metaKey || event.altKey) {
    return;
  }
  const act = KEYS.get(event.key);
  const mover = main.querySelector<Figure>(".graph")?.mover;
  if (act) {
    event.preventDefault();
    act();
  } else if (mover && ["+", "=", "-", "0"].includes(event.key)) {
    mover.onKey(event);
  }
}

function keys() {
  const all = [
    ["/", "filter"], ["n p", "next, previous dependency"], ["o", "open its module"],
    ["g", "graph and lists"], ["+ - 0", "larger, smaller, fit"],
  ];
  const shown = all.map(([key, effect]) => element("span", {}, element("kbd", {}, key), ` ${effect}`));
  return element("footer", {}, ...shown);
}

const home = element("a", { href: "#", class: "home" }, report.title);
document.body.classList.toggle("without-entries", report.entries.length === 0);
document.body.replaceChildren(element("aside", {}, home, modules.view, keys()), main);
main.addEventListener("drawn", ({ target }) => (target as Figure).onFilter?.(matches));
addEventListener("hashchange", show);
addEventListener("keydown", onKey);
await nextTask();
show();
