/** The graph of a folder, and functions that all graphs use. */

import { element } from "./elements.js";
import { type Matches, fadeGraph } from "./filter.js";
import { type Folder, chainOf, root } from "./folders.js";
import { type Plan, type PlannedEdge, type PlannedNode, draw } from "./graph_drawing.js";
import { followPointer, listenInGraph } from "./graph_keys.js";
import { askLayout, sizeOfLabel, widthOf } from "./graph_layout.js";
import { hideEdges, legend, partsOfPlan } from "./graph_legend.js";
import { Mover, type Size, fitScale, heightFor } from "./graph_move.js";
import { lookOf } from "./graph_nodes.js";
import { type Scene, boxesOf, sceneOf } from "./graph_scene.js";
import { type Item, type Look, folderIn } from "./graph_tree.js";
import { counted, nameText } from "./pieces.js";
import { report } from "./report.js";
import type { Given, Layout } from "./layout_boxes.js";

/** The least scale at which labels can be read: their letters have 12 pixels at the scale 1, and 11 then. */
export const READABLE_SCALE = 11 / 12;

/** The weight of the font of a box's title, as in the style. */
const TITLE_WEIGHT = 600;

/** After this many layouts in which labels are too small, none with more items is tried. */
const MOST_FAILED = 2;

/** Least and most of the window's height that a drawing fills, and its least height in pixels. */
const PARTS = { least: 0.5, most: 0.7 };
const LEAST_HEIGHT = 120;

/** Height of the legend, which is put above a drawing, and of the page below it, in pixels. */
const BESIDE = 50;

/** What the page calls of a figure: with the modules that match the filter, and when the figure is shown again. */
interface Listeners {
  onFilter: (matches: Matches | undefined) => void;
  onShown?: () => void;
}

/** The view of a figure; the listeners and the mover are there once it is drawn. */
export type Figure = HTMLElement & Partial<Listeners> & { mover?: Mover };

export interface Frame {
  view: Figure;
  box: HTMLElement;
  bar: HTMLElement;
}

/** Makes the box of a graph and the bar above it. */
export function graphFrame(title: (Node | string)[]): Frame {
  const label = "graph; arrows, +, - and 0 move it";
  const word = element("p", { class: "waiting", role: "status" }, "Drawing …");
  const box = element("div", { class: "drawing", tabindex: "0", role: "group", "aria-label": label }, word);
  const bar = element("div", { class: "bar" }, element("h2", {}, ...title));
  return { view: element("section", { class: "graph" }, bar, box), box, bar };
}

/**
 * Returns the largest size of a drawing in its box: the end of the drawing is seen without scrolling,
 * unless the drawing would be too small then.
 * @param box in the page, without its drawing
 */
export function roomIn(box: HTMLElement): Size {
  const below = innerHeight - box.offsetTop - BESIDE;
  const height = Math.min(PARTS.most * innerHeight, Math.max(PARTS.least * innerHeight, below));
  return { width: Math.max(200, box.clientWidth), height: Math.max(240, height) };
}

/** Shows a plan in its box: all of it, or if the labels would be too small then, its middle. */
export function showPlan({ view, box, bar }: Frame, plan: Plan, scene: Scene) {
  const room = roomIn(box);
  const { drawing, scene: group } = draw(plan);
  box.style.height = `${Math.max(LEAST_HEIGHT, Math.min(room.height, heightFor(plan, room)))}px`;
  box.replaceChildren(drawing);
  const mover = new Mover(box, plan, ({ x, y, scale }) => {
    group.setAttribute("transform", `translate(${x} ${y}) scale(${scale})`);
  });
  mover.fit();
  if (mover.scale < READABLE_SCALE) {
    mover.zoom(READABLE_SCALE / mover.scale);
  }
  const hide = () => hideEdges(drawing);
  box.before(legend(partsOfPlan(plan), hide));
  followPointer(drawing, scene);
  const onFilter = (matches: Matches | undefined) => matches && fadeGraph(drawing, matches);
  showMoved({ view, box, bar }, mover, { onFilter, onShown: hide });
}

/** Lets a figure be moved, and tells the page that it is there. */
export function showMoved({ view, box, bar }: Frame, mover: Mover, listeners: Listeners) {
  bar.append(mover.buttons());
  listenInGraph(box, mover);
  Object.assign(view, { mover, ...listeners });
  view.dispatchEvent(new CustomEvent("drawn", { bubbles: true }));
}

/** Draws a figure once its box is in the page. Returns its view, which has the reason where it can't be drawn. */
export function drawSoon({ view, box }: Frame, drawFigure: () => Promise<void>): HTMLElement {
  requestAnimationFrame(() => drawFigure().catch(({ message }) => {
    box.replaceChildren(element("p", { class: "none" }, `There is no graph: ${message}.`));
  }));
  return view;
}

/** @returns the path to a folder, in which each folder is a link */
export function crumbs(folder: Folder): HTMLElement {
  const links = chainOf(folder).map((each) => {
    const rootName = [report.title, each.path].filter(Boolean).join("/");
    const name = each === root ? rootName : each.name;
    return element("a", { href: each === root ? "#" : `#folder-${each.index}` }, ...nameText(name));
  });
  return element("span", { class: "crumbs" }, ...links.flatMap((link) => [link, "/"]));
}

/** The graph of a folder; if the modules are too many for one drawing, the view that `instead` makes. */
export function graphView(folder: Folder, instead: (folder: Folder) => HTMLElement): HTMLElement {
  const frame = graphFrame([crumbs(folder)]);
  return drawSoon(frame, () => drawFolder(frame, folder, instead));
}

async function drawFolder(frame: Frame, folder: Folder, instead: (folder: Folder) => HTMLElement) {
  const found = await bestLayout(folder, roomIn(frame.box));
  if (!frame.view.isConnected) {
    return;
  }
  if (!found || isPoor(found.scene, folder)) {
    frame.view.replaceWith(instead(folder));
  } else {
    showPlan(frame, found.plan, found.scene);
    frame.bar.append(element("span", { class: "count" }, counted(folder.count, "module")));
  }
}

/** Returns the layout with most items whose labels are large enough, else the one with fewest items. */
async function bestLayout(folder: Folder, room: Size) {
  let best: Awaited<ReturnType<typeof planOfScene>> | undefined;
  let failed = 0;
  for (const box of boxesOf(folder)) {
    const found = await planOfScene(sceneOf(folder, box), room);
    failed = found.isReadable ? 0 : failed + 1;
    if (found.isReadable || best === undefined) {
      best = found;
    }
    if (failed === MOST_FAILED) {
      break;
    }
  }
  return best;
}

/** Whether the modules of the folder itself, as one item, are most of what is drawn. */
function isPoor({ top }: Scene, folder: Folder) {
  const { items = [] } = folder === root ? top : top.items?.[0] ?? top;
  const flat = items.find(({ type }) => type === "flat");
  const all = items.reduce((sum, { count }) => sum + count, 0);
  return flat !== undefined && items.length <= 3 && 2 * flat.count >= all;
}

/** Lays out a scene. */
export async function planOfScene(scene: Scene, room: Size) {
  const layout = await askLayout(givenOf(scene.top, scene.edges), room, READABLE_SCALE);
  return { scene, plan: planOf(scene, layout), isReadable: fitScale(layout, room) >= READABLE_SCALE };
}

/** Returns an item in the form that the layout reads. */
function givenOf(item: Item, edges: Scene["edges"]): Given {
  const { label, count = "" }: Partial<Look> = item.id === "top" ? {} : lookOf(item);
  const text = `${label ?? ""}${count && ` ${count}`}`;
  if (item.type !== "box") {
    return { id: item.id, size: sizeOfLabel(text) };
  }
  return {
    id: item.id,
    title: widthOf(text, TITLE_WEIGHT),
    items: (item.items ?? []).map((each) => givenOf(each, edges)),
    edges: (edges.get(item) ?? []).map((edge) => ({ from: edge.from, to: edge.to, count: edge.count })),
  };
}

/** The modules that an item stands for: some, those directly in a folder, or those below some folders. */
function modulesOf(item: Item): Partial<PlannedNode> {
  const { type, module, folders = [], modules } = item;
  switch (type) {
    case "module": return { module };
    case "flat": return { inside: folderIn(item).index };
    case "more": return { folders: folders.map(({ index }) => index), modules };
    default: return { folders: [folderIn(item).index] };
  }
}

/** Puts the items of a scene where the layout has them. */
function planOf({ top, edges }: Scene, layout: Layout): Plan {
  const nodes: PlannedNode[] = [];
  const frames: PlannedNode[] = [];
  const visit = (item: Item) => {
    const { id, type } = item;
    if (layout.boxes[id]) {
      const shown = { id, rectangle: layout.boxes[id], look: lookOf(item), ...modulesOf(item) };
      (type === "box" ? frames : nodes).push(shown);
    }
    item.items?.forEach(visit);
  };
  visit(top);
  const drawnEdges = new Map([...edges.values()].flat().map((edge) => [`${edge.from} ${edge.to}`, edge]));
  const placed = layout.edges.map((edge) => {
    return { ...edge, ...drawnEdges.get(`${edge.from} ${edge.to}`) } as PlannedEdge;
  });
  return { width: layout.width, height: layout.height, nodes, frames, edges: placed };
}
