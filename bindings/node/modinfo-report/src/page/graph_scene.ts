/** The items and edges of a drawing: of a folder and of its neighbours. */

import { type Folder, chainOf, root } from "./folders.js";
import { type DrawnEdge, edgesIn, leavesOf } from "./graph_edges.js";
import { boxOf, boxWith, eachModuleOf, folderIn, folderItem, moreItem, ownItems } from "./graph_tree.js";
import type { Item, Look } from "./graph_tree.js";

/** Bounds that are tried: the most items, and the most modules of one folder. */
const MOST_ITEMS = [6, 9, 12, 16, 20, 25, 30, 40, 50, 60, 80, 120];
const MOST_OF_FOLDER = [3, 8, 20, 60];

/** The most neighbours of a folder that are drawn beside it, one for all others; and the most modules of one. */
const MOST_AROUND = 12;
const MOST_BESIDE = 20;

export interface Scene {
  /** The outermost box, which isn't drawn itself */
  top: Item;
  /** For each module its item */
  leaves: (Item | undefined)[];
  edges: Map<Item, DrawnEdge[]>;
}

/** The different boxes with which a folder can be drawn, with more and more items. */
export function boxesOf(scope: Folder): Item[] {
  const found = new Map<string, { box: Item, count: number }>();
  for (const items of MOST_ITEMS) {
    for (const modules of MOST_OF_FOLDER) {
      const box = boxOf(scope, { items, modules });
      const ids = itemsOf(box).map(({ id }) => id);
      found.set(ids.join(" "), { box, count: ids.length });
    }
  }
  return [...found.values()].sort((one, other) => one.count - other.count).map(({ box }) => box);
}

/** Returns the items in a box that aren't boxes. */
function itemsOf(box: Item): Item[] {
  return (box.items ?? []).flatMap((item) => (item.items ? itemsOf(item) : [item]));
}

/** @param box its */
export function sceneOf(scope: Folder, box: Item): Scene {
  if (scope === root) {
    const leaves = leavesOf(box);
    return { top: box, leaves, edges: edgesIn(leaves) };
  }
  const all = around(scope, box);
  const edges = edgesIn(leavesOf(all)).get(all) ?? [];
  const top = withNeighbours(all, box, edges);
  const leaves = leavesOf(top);
  const shown = edgesIn(leaves);
  shown.set(top, (shown.get(top) ?? []).filter(({ from, to }) => from === box.id || to === box.id));
  return { top, leaves, edges: shown };
}

/** Returns a box around the scope's box and all items beside it in the folders above. */
function around(scope: Folder, box: Item) {
  const chain = chainOf(scope);
  const items = chain.slice(0, -1).flatMap((folder, at) => {
    const others = folder.folders.filter((each) => each !== chain[at + 1]).map(folderItem);
    return [...others, ...ownItems(folder, MOST_BESIDE)];
  });
  return boxWith([box, ...items]);
}

/** Keeps the items with an edge to the scope or from it; of too many, those with most edges. */
function withNeighbours(all: Item, box: Item, edges: DrawnEdge[]) {
  const counts = new Map<string, number>();
  const countOf = (id: string) => counts.get(id) ?? 0;
  for (const { from, to, count } of edges) {
    const other = from === box.id ? to : to === box.id ? from : undefined;
    if (other !== undefined) {
      counts.set(other, countOf(other) + count);
    }
  }
  const near = (all.items ?? []).filter(({ id }) => counts.has(id));
  near.sort((one, other) => countOf(other.id) - countOf(one.id));
  const rest = near.slice(MOST_AROUND);
  const folders = rest.filter(({ type }) => type === "folder").map(folderIn);
  const modules: number[] = [];
  rest.filter(({ type }) => type !== "folder").forEach((item) => eachModuleOf(item, (each) => modules.push(each)));
  const more = rest.length > 0 ? [moreItem(root, folders, modules)] : [];
  return boxWith([box, ...near.slice(0, MOST_AROUND), ...more]);
}

/** The scene of modules with all edges between them, and of more items, whose own edges aren't drawn. */
export function sceneWith(modules: number[], lookOf: (module: number) => Look, more: Item[] = []): Scene {
  const items = modules.map((module): Item => {
    return { id: `m${module}`, type: "module", module, count: 1, look: lookOf(module) };
  });
  const top = boxWith([...items, ...more]);
  const leaves = leavesOf(top);
  const ids = new Set(more.map(({ id }) => id));
  const all = edgesIn(leaves).get(top) ?? [];
  return { top, leaves, edges: new Map([[top, all.filter(({ from, to }) => !ids.has(from) || !ids.has(to))]]) };
}
