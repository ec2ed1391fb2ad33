/** The picture of sizes: folders and modules as areas, by their bytes or by their count of modules. */

import { element } from "./elements.js";
import { type Folder, root } from "./folders.js";
import { crumbs } from "./graph_view.js";
import { counted, hashOf, sizeText, weightText } from "./pieces.js";
import { paths, report, visible } from "./report.js";

/** The depth of folders in folders that is drawn, and the most areas side by side. */
const DEPTH = 3;
const MOST_AREAS = 120;

/** Pixels of an area: the least side that is drawn, and the least size with a name. */
const LEAST_SIDE = 5;
const NAMED = { width: 40, height: 17 };

/** Pixels of a folder's area: the least size in which its content is drawn, and its title's height. */
const OPEN = { width: 64, height: 48 };
const HEAD = 18;

/** The measures of an area. */
type Measure = "bytes" | "modules";
const MEASURES: Measure[] = ["bytes", "modules"];

/** What an area shows: a module, a folder, or more modules of a folder. */
interface Data {
  folder?: Folder;
  module?: number;
  /** How many modules. */
  rest?: number;
  value?: number;
  children?: Data[];
}

/** A node of d3's hierarchy, with the area that its treemap gives. */
interface Area {
  data: Data;
  depth: number;
  value: number;
  x0: number;
  x1: number;
  y0: number;
  y1: number;
  children?: Area[];
  /** Whether its content is drawn. */
  isOpen?: boolean;
  sum(valueOf: (data: Data) => number): Area;
  sort(compare: (one: Area, other: Area) => number): Area;
}

interface Treemap {
  (root: Area): void;
  size(size: [number, number]): Treemap;
  paddingInner(width: number): Treemap;
  paddingOuter(width: number): Treemap;
  paddingTop(width: (area: Area) => number): Treemap;
  round(isRounded: boolean): Treemap;
}

/** What is used of d3-hierarchy. */
interface D3 {
  hierarchy(data: Data): Area;
  treemap(): Treemap;
}

/** @param word of the address: a measure, else it is by bytes */
export function sizesView(folder: Folder, word: string): HTMLElement {
  const measure = MEASURES.find((each) => each === word) ?? "bytes";
  const box = element("div", { class: "sizes", role: "group", "aria-label": "sizes of folders and modules" });
  const choices = MEASURES.map((each) => {
    const href = `#sizes-${folder.index}-${each}`;
    const current = each === measure ? "true" : undefined;
    return element("a", { href, class: "choice", "aria-current": current }, `by ${each}`);
  });
  const bar = element("div", { class: "bar" }, element("h2", {}, crumbs(folder)), ...choices);
  const view = element("section", { class: "graph" }, bar, box);
  const fault = report.absent["d3-hierarchy"];
  if (fault) {
    box.append(element("p", { class: "none" }, `There is no picture of sizes: ${fault}.`));
  } else {
    new ResizeObserver(() => drawSizes(box, folder, measure)).observe(box);
  }
  return view;
}

function drawSizes(box: HTMLElement, folder: Folder, measure: Measure) {
  const { d3 } = globalThis as unknown as { d3: D3 };
  const tree = d3.hierarchy(areaOf(folder, measure, DEPTH)).sum(({ value = 0 }) => value)
    .sort((one, other) => other.value - one.value);
  d3.treemap().size([box.clientWidth, box.clientHeight]).paddingInner(2).paddingOuter(3)
    .paddingTop((node) => (node.depth > 0 && node.y1 - node.y0 > 2 * HEAD ? HEAD : 3)).round(true)(tree);
  box.replaceChildren(...shownInside(tree).map((node) => areaView(node, measure)));
}

/** Returns the areas inside of an area that are drawn: neither too small ones, nor the content of small ones. */
function shownInside({ children = [] }: Area): Area[] {
  const sides = ({ x0, x1, y0, y1 }: Area) => [x1 - x0, y1 - y0];
  const shown = children.filter((node) => Math.min(...sides(node)) >= LEAST_SIDE);
  return shown.flatMap((node) => {
    const [width, height] = sides(node);
    node.isOpen = node.children !== undefined && width >= OPEN.width && height >= OPEN.height;
    return node.isOpen ? [node, ...shownInside(node)] : [node];
  });
}

/** Returns a folder with its content to a depth; the smallest modules are one area. */
function areaOf(folder: Folder, measure: Measure, depth: number): Data {
  const value = measure === "bytes" ? folder.bytes : folder.count;
  if (depth === 0) {
    return { folder, value };
  }
  const modules = folder.modules.map((module) => {
    return { module, value: measure === "bytes" ? report.bytes[module] : 1 };
  });
  const own = modules.sort((one, other) => other.value - one.value);
  const rest = own.slice(MOST_AREAS);
  const inside = folder.folders.map((each) => areaOf(each, measure, depth - 1));
  const children: Data[] = [...inside, ...own.slice(0, MOST_AREAS)];
  if (rest.length > 0) {
    children.push({ rest: rest.length, folder, value: rest.reduce((sum, each) => sum + each.value, 0) });
  }
  return children.length > 0 ? { folder, children } : { folder, value };
}

function areaView({ x0, x1, y0, y1, depth, data, isOpen, value }: Area, measure: Measure) {
  const [width, height] = [x1 - x0, y1 - y0];
  const { name, path, href } = areaName(data);
  const size = measure === "bytes" ? sizeText(value) : counted(value, "module");
  const { module } = data;
  const title = `${path}: ${module !== undefined && measure === "bytes" ? weightText(module) : size}`;
  const isNamed = width >= NAMED.width && height >= NAMED.height;
  const kind = `area${data.module === undefined ? " folder-area" : ""}${isNamed ? " named" : ""}`;
  const isTall = !isOpen && height >= 2 * NAMED.height;
  const area = element(
    "a",
    {
      href: measureHref(href, measure), class: `${kind} depth-${depth}`, title, "aria-label": title,
    },
    isNamed ? element("span", {}, isTall ? name : `${name} ${size}`) : undefined,
    isNamed && isTall ? element("span", { class: "count" }, size) : undefined,
  );
  Object.assign(area.style, { left: `${x0}px`, top: `${y0}px`, width: `${width}px`, height: `${height}px` });
  return area;
}

function measureHref(href: string, measure: Measure) {
  return href.startsWith("#sizes-") ? `${href}-${measure}` : href;
}

function areaName({ module, folder = root, rest }: Data) {
  if (module !== undefined) {
    return { name: visible(report.modules[module]), path: visible(paths[module]), href: hashOf(module) };
  }
  const [path, href] = [`${visible(folder.path)}/`, `#sizes-${folder.index}`];
  const name = rest === undefined ? `${visible(folder.name)}/` : counted(rest, "more module");
  return { name, path: rest === undefined ? path : `${path}: ${name}`, href };
}
