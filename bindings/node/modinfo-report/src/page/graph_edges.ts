/**
 * The edges between items. From one item to another in the same box there is one edge, with the count of
 * all edges between their modules.
 */

import { type CycleKind, type KindCounts, countKind, cycleOfEdge, strongerCycle } from "./graph_kinds.js";
import { type Item, eachModuleOf } from "./graph_tree.js";
import { eachEdge, report } from "./report.js";

export interface DrawnEdge {
  /** The id of an item */
  from: string;
  to: string;
  kinds: KindCounts;
  /** Of the edges between modules */
  count: number;
  /** Of which one of them is a part */
  cycle?: CycleKind;
  /** Whether it is drawn as a part of a path. */
  isMarked?: boolean;
}

/** For each module the innermost item that shows it; nothing for modules that aren't drawn. */
export function leavesOf(top: Item): (Item | undefined)[] {
  const leaves: (Item | undefined)[] = new Array(report.modules.length);
  const visit = (item: Item) => {
    if (item.type === "box") {
      item.items?.forEach(visit);
    } else {
      eachModuleOf(item, (module) => (leaves[module] ??= item));
    }
  };
  visit(top);
  return leaves;
}

/** The edges between the items of each box, by boxes. */
export function edgesIn(leaves: (Item | undefined)[]): Map<Item, DrawnEdge[]> {
  const byBox: Map<Item, Map<string, DrawnEdge>> = new Map();
  for (let module = 0; module < leaves.length; module++) {
    const from = leaves[module];
    if (from !== undefined) {
      eachPair(module, (to, kind) => {
        const end = leaves[to];
        if (end) {
          addEdge(byBox, [from, end], kind, cycleOfEdge(module, to, kind));
        }
      });
    }
  }
  return new Map([...byBox].map(([box, edges]) => [box, [...edges.values()]]));
}

/** Calls a function with each other module that a module leads to, once for each kind. */
export function eachPair(module: number, act: (to: number, kind: number) => void) {
  const seen = new Set();
  eachEdge(module, (to, kind) => {
    const key = to * report.kinds.length + kind;
    if (to !== module && !seen.has(key)) {
      seen.add(key);
      act(to, kind);
    }
  });
}

function addEdge(
  byBox: Map<Item, Map<string, DrawnEdge>>, [from, to]: [Item, Item], kind: number, cycle: CycleKind | undefined,
) {
  const ends = from === to ? undefined : siblings(from, to);
  if (ends === undefined) {
    return;
  }
  const [box, first, second] = ends;
  const edges = byBox.get(box) ?? new Map<string, DrawnEdge>();
  byBox.set(box, edges);
  drawnEdge(edges, first.id, second.id, { kind, cycle });
}

/**
 * Counts an edge between modules in the edge that is drawn between their items.
 * @param edges by their ends, to which a new one is added
 * @param from the id of an item
 */
export function drawnEdge(
  edges: Map<string, DrawnEdge>, from: string, to: string,
  { kind, cycle }: { kind: number, cycle?: CycleKind },
): DrawnEdge {
  const key = `${from} ${to}`;
  const edge: DrawnEdge = edges.get(key) ?? { from, to, kinds: new Map(), count: 0 };
  edges.set(key, edge);
  countKind(edge.kinds, kind);
  edge.count++;
  edge.cycle = strongerCycle(edge.cycle, cycle);
  return edge;
}

/** The items between which the edge of two items is drawn: themselves, or boxes around them side by side. */
export function drawnEnds(from: Item, to: Item): [Item, Item] {
  const [, first = from, second = to] = siblings(from, to) ?? [];
  return [first, second];
}

/** Returns the innermost box around two items, and its items around each of them. */
function siblings(from: Item, to: Item): [box: Item, first: Item, second: Item] | undefined {
  let [first, second] = [from, to];
  let [above, below] = [depthOf(first), depthOf(second)];
  for (; above > below; above--) {
    first = first.parent as Item;
  }
  for (; below > above; below--) {
    second = second.parent as Item;
  }
  while (first.parent !== second.parent) {
    [first, second] = [first.parent as Item, second.parent as Item];
  }
  return first === second || first.parent === undefined ? undefined : [first.parent, first, second];
}

function depthOf(item: Item) {
  let depth = 0;
  for (let at = item.parent; at !== undefined; at = at.parent) {
    depth++;
  }
  return depth;
}
