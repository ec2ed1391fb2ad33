/**
 * Lays out boxes in boxes: the items of the innermost boxes first, then each box as an item of the box
 * around it.
 */

import { type Point, curveOf, placeOfCount, pointsOnCurve } from "./layout_curves.js";
import { type Placed, gridOf, shelvesOf } from "./layout_grid.js";

/** An item, or a box */
export interface Given {
  id: string;
  /** Of an item: its width and height */
  size?: [number, number];
  /** Of a box: the width of its title */
  title?: number;
  /** Inside of a box */
  items?: Given[];
  /** Between its items */
  edges?: { from: string, to: string, count: number }[];
}

export interface Layout {
  width: number;
  height: number;
  /** By id: the upper left corner, the width and the height */
  boxes: Record<string, [number, number, number, number]>;
  edges: { from: string, to: string, path: string, label?: [number, number] }[];
}

/** What the worker is asked; `enough` is the scale that is large enough. */
export interface LayoutRequest {
  id: number;
  top: Given;
  room: { width: number, height: number };
  enough: number;
}

export interface LayoutAnswer {
  id: number;
  layout?: Layout;
  fault?: string;
}

/** The direction of edges, as dagre names it. */
export type Direction = "LR" | "TB";

type Edge = NonNullable<Given["edges"]>[number];

/** An item with its size; a box also has its parts. */
interface Laid {
  id: string;
  width: number;
  height: number;
  parts?: Part[];
}

/** An item or an edge, and where it is in its box. */
interface Part {
  corner: [number, number];
  item?: Laid;
  edge?: { from: string, to: string, points: Point[], label?: Point };
}

interface Drawing {
  parts: Part[];
  width: number;
  height: number;
}

interface Group {
  nodes: Laid[];
  edges: Edge[];
}

/** What is used of dagre. */
interface DagreGraph {
  setGraph(options: { rankdir: Direction, nodesep: number, ranksep: number, edgesep: number }): void;
  setNode(id: string, size: { width: number, height: number }): void;
  setEdge(from: string, to: string, label: { width: number, height: number, labelpos?: "c" }): void;
  node(id: string): Point;
  edge(from: string, to: string): Point & { points: Point[] };
}
interface Dagre {
  graphlib: { Graph: new () => DagreGraph };
  layout(graph: DagreGraph): void;
}

/** Lengths in a drawing: around a box's items, above them for its title, and between two items. */
const PADDING = 10;
const TITLE = 20;
const GAP = 14;

/** The preferred width of a box for a height of 1. */
const BOX_ASPECT = 1.8;

/** The size of a count on an edge: of its border, and of a digit. */
const LABEL = { border: 5, digit: 7, height: 12 };

/**
 * @param top the outermost box, which has no title
 * @param aspect the width of the whole for a height of 1
 * @param directions of its edges, and of those in the boxes inside
 */
export function layoutOf(top: Given, aspect: number, directions: [Direction, Direction]): Layout {
  const laid = layBox(top, aspect, directions);
  const layout: Layout = { width: laid.width, height: laid.height, boxes: {}, edges: [] };
  collect(laid.parts, 0, 0, layout);
  return layout;
}

/** Adds the rectangles of the items in a box to the layout. */
function collect(parts: Part[], x: number, y: number, layout: Layout) {
  for (const { item, corner: [left, top], edge } of parts) {
    if (edge) {
      const move = ({ x: across, y: down }: Point) => ({ x: across + left + x, y: down + top + y });
      const { from, to, points, label } = edge;
      const middle = label && move(label);
      layout.edges.push({ from, to, path: curveOf(points.map(move)), label: middle && [middle.x, middle.y] });
    } else if (item) {
      layout.boxes[item.id] = [x + left, y + top, item.width, item.height];
      collect(item.parts ?? [], x + left, y + top, layout);
    }
  }
}

/** Returns an item with its width and height; a box also has its parts. */
function layItem(item: Given, direction: Direction): Laid {
  const { size: [itemWidth, itemHeight] = [0, 0], title = 0 } = item;
  if (item.items === undefined) {
    return { id: item.id, width: itemWidth, height: itemHeight };
  }
  const laid = layBox(item, BOX_ASPECT, [direction, direction]);
  for (const part of laid.parts) {
    part.corner = [part.corner[0] + PADDING, part.corner[1] + PADDING + TITLE];
  }
  const width = Math.max(laid.width, title) + 2 * PADDING;
  return { id: item.id, parts: laid.parts, width, height: laid.height + 2 * PADDING + TITLE };
}

/** Lays out the items of a box: each group that edges connect as a drawing, the others in a grid. */
function layBox(
  { items = [], edges = [] }: Given, aspect: number, [direction, inner]: [Direction, Direction],
): Drawing {
  const laid = items.map((item) => layItem(item, inner));
  const groups = connected(laid, edges);
  const drawings = groups.filter(({ nodes }) => nodes.length > 1).map((group) => drawGroup(group, direction));
  const placed = shelvesOf(sizesOf(drawings), { gap: 2 * GAP, aspect });
  const parts = drawings.flatMap((drawing, at) => moved(drawing.parts, placed.corners[at]));
  const single = groups.filter(({ nodes }) => nodes.length === 1).map(({ nodes: [node] }) => node);
  if (single.length === 0) {
    return { parts, width: placed.width, height: placed.height };
  }
  return withSingle({ ...placed, parts }, single, aspect);
}

function sizesOf(all: { width: number, height: number }[]) {
  return all.map(({ width, height }): [number, number] => [width, height]);
}

/** Puts the items without edges below the others: boxes on shelves, and the rest in a grid. */
function withSingle({ parts, width, height }: Drawing, single: Laid[], aspect: number): Drawing {
  const all = [...parts];
  let [wide, high] = [width, height];
  const add = (nodes: Laid[], { corners, width: across, height: down }: Placed) => {
    const top = high > 0 ? high + 2 * GAP : 0;
    all.push(...nodes.map((item, at): Part => ({ item, corner: [corners[at][0], corners[at][1] + top] })));
    [wide, high] = [Math.max(wide, across), top + down];
  };
  const boxes = single.filter((node) => node.parts);
  const plain = single.filter((node) => !node.parts);
  if (boxes.length > 0) {
    add(boxes, shelvesOf(sizesOf(boxes), { gap: GAP, aspect }));
  }
  if (plain.length > 0) {
    const area = plain.reduce((sum, node) => sum + (node.width + GAP) * (node.height + GAP), 0);
    const room = Math.max(wide, Math.sqrt(area * aspect));
    add(plain, gridOf(sizesOf(plain), { gap: GAP / 2, width: room }));
  }
  return { parts: all, width: wide, height: high };
}

function moved(parts: Part[], [x, y]: [number, number]): Part[] {
  return parts.map((part) => ({ ...part, corner: [part.corner[0] + x, part.corner[1] + y] }));
}

/** Returns the groups of items that edges connect, with their edges. */
function connected(nodes: Laid[], edges: Edge[]): Group[] {
  const groups = new Map(nodes.map((node): [string, Group] => [node.id, { nodes: [node], edges: [] }]));
  // Each edge is between two of the nodes.
  const groupOf = (id: string) => groups.get(id) as Group;
  for (const { from, to } of edges) {
    const [one, other] = [groupOf(from), groupOf(to)];
    if (one !== other) {
      const [large, small] = one.nodes.length < other.nodes.length ? [other, one] : [one, other];
      large.nodes.push(...small.nodes);
      small.nodes.forEach(({ id }) => groups.set(id, large));
    }
  }
  edges.forEach((edge) => groupOf(edge.from).edges.push(edge));
  return [...new Set(groups.values())];
}

/** Lays out one connected group, by dagre. */
function drawGroup({ nodes, edges }: Group, direction: Direction): Drawing {
  const { dagre } = globalThis as unknown as { dagre: Dagre };
  const graph = new dagre.graphlib.Graph();
  graph.setGraph({ rankdir: direction, nodesep: 8, ranksep: 30, edgesep: 6 });
  nodes.forEach(({ id, width, height }) => graph.setNode(id, { width, height }));
  edges.forEach(({ from, to, count }) => {
    const { border, digit, height } = LABEL;
    const width = border + digit * String(count).length;
    graph.setEdge(from, to, count > 1 ? { width, height, labelpos: "c" } : { width: 0, height: 0 });
  });
  dagre.layout(graph);
  const parts = nodes.map((item): Part => {
    const { x, y } = graph.node(item.id);
    return { item, corner: [x - item.width / 2, y - item.height / 2] };
  });
  const counts: { x: number, y: number, width: number }[] = [];
  const curves = edges.map(({ from, to, count }): Part => {
    const { points, x, y } = graph.edge(from, to);
    const label = count > 1 ? placeOfCount(pointsOnCurve(points, { x, y }), count, counts) : undefined;
    return { corner: [0, 0], edge: { from, to, points, label } };
  });
  return atOrigin([...parts, ...curves]);
}

/** Moves parts to the upper left corner, and measures them together with their edges. */
function atOrigin(parts: Part[]): Drawing {
  const xs: number[] = [];
  const ys: number[] = [];
  for (const { item, corner: [x, y], edge } of parts) {
    const { width, height } = item ?? { width: 0, height: 0 };
    const points = edge ? edge.points : [{ x, y }, { x: x + width, y: y + height }];
    points.forEach((point) => {
      xs.push(point.x);
      ys.push(point.y);
    });
  }
  const [left, top] = [Math.min(...xs), Math.min(...ys)];
  return { parts: moved(parts, [-left, -top]), width: Math.max(...xs) - left, height: Math.max(...ys) - top };
}
