/** A drawing as SVG. */

import { drawn } from "./elements.js";
import { kindsText, strongestKind } from "./graph_kinds.js";
import { kindNamed, report } from "./report.js";
import type { DrawnEdge } from "./graph_edges.js";
import type { Look } from "./graph_tree.js";

export interface Plan {
  width: number;
  height: number;
  nodes: PlannedNode[];
  /** The boxes around nodes, the outermost first */
  frames: PlannedNode[];
  edges: PlannedEdge[];
}

export interface PlannedNode {
  id: string;
  /** The upper left corner, the width and the height */
  rectangle: [number, number, number, number];
  look: Look;
  module?: number;
  /** The folder whose own modules the node stands for */
  inside?: number;
  /** Those whose modules the node stands for */
  folders?: number[];
  /** Which the node stands for too */
  modules?: number[];
}

/** `label` is the middle of its count */
export type PlannedEdge = DrawnEdge & { path: string, label?: [number, number] };

/** @returns the scene is the group that is moved */
export function draw({ nodes, frames, edges }: Plan): { drawing: SVGElement, scene: SVGElement } {
  const names = new Map([...nodes, ...frames].map(({ id, look }) => [id, look.description]));
  const scene = drawn(
    "g", { class: "scene" },
    drawn("g", {}, ...frames.map(frameView)),
    drawn("g", { class: "edges" }, ...edges.flatMap((edge) => [...haloOf(edge), edgeView(edge, names)])),
    drawn("g", { class: "nodes" }, ...nodes.map(nodeView)),
    drawn("g", { class: "counts" }, ...edges.filter(({ label }) => label).map(countView)),
  );
  const drawing = drawn(
    "svg", { role: "group", "aria-label": "graph of modules", class: "modules" },
    drawn("defs", {}, ...report.kinds.map(({ kind }) => arrow(kind)), hatch()),
    scene,
  );
  drawing.querySelector(".node")?.setAttribute("tabindex", "0");
  return { drawing, scene };
}

function arrow(kind: string) {
  const tip = drawn("path", { d: "M0 0L8 3.5L0 7Z", class: `tip ${kind}` });
  const size = { markerWidth: 8, markerHeight: 7, markerUnits: "userSpaceOnUse" };
  const attach = { refX: 7.5, refY: 3.5, orient: "auto" };
  return drawn("marker", { id: `arrow-${kind}`, ...size, ...attach }, tip);
}

/** Makes the pattern of modules that nothing reaches. */
function hatch() {
  const size = { width: 5, height: 5, patternUnits: "userSpaceOnUse", patternTransform: "rotate(45)" };
  return drawn(
    "pattern", { id: "hatch", ...size },
    drawn("rect", { width: 5, height: 5, class: "hatch-ground" }), drawn("path", { d: "M0 0V5", class: "hatch" }),
  );
}

/** The attributes by which what shows an edge is found. */
function dataOf({ from, to, kinds }: PlannedEdge) {
  return { "data-from": from, "data-to": to, "data-kinds": [...kinds.keys()].join(" ") };
}

/** Returns the colour of the cycle of an edge, which is drawn below the edge. */
function haloOf(edge: PlannedEdge) {
  const { path, cycle } = edge;
  return cycle ? [drawn("path", { d: path, class: `halo in-${cycle}`, ...dataOf(edge) })] : [];
}

function edgeView(edge: PlannedEdge, names: Map<string, string>) {
  const { from, to, path, kinds, isMarked } = edge;
  const kind = strongestKind(kinds);
  const attributes = {
    d: path, class: `edge ${kind}${isMarked ? " marked" : ""}`, "marker-end": `url(#arrow-${kind})`,
    "stroke-dasharray": kindNamed(kind).dash || undefined, ...dataOf(edge),
  };
  const title = `${names.get(from)} → ${names.get(to)}: ${kindsText(kinds)}`;
  return drawn("path", attributes, drawn("title", {}, title));
}

function countView(edge: PlannedEdge) {
  const { label: [x, y] = [0, 0], count, kinds } = edge;
  const text = count.toLocaleString("en");
  const width = 8 + 7 * text.length;
  return drawn(
    "g", { class: `edge-count ${strongestKind(kinds)}`, ...dataOf(edge) },
    drawn("rect", { x: x - width / 2, y: y - 8, width, height: 16, rx: 8 }),
    drawn("text", { x, y: y + 4 }, text),
  );
}

function frameView({ id, rectangle: [x, y, width, height], look, folders }: PlannedNode) {
  return drawn(
    "g", { class: "frame", "data-id": id, "data-folders": folders?.join(" ") },
    drawn("rect", { x, y, width, height, rx: 6 }),
    drawn(
      "a", { href: look.href, "aria-label": look.description, class: "frame-title" },
      drawn("title", {}, look.description),
      labelText(look, { x: x + 10, y: y + 17 }),
    ),
  );
}

function nodeView({ id, rectangle: [x, y, width, height], look, ...shown }: PlannedNode) {
  const { module, inside, folders, modules } = shown;
  return drawn(
    "a",
    {
      href: look.href, class: `node ${look.classes}`.trim(), "data-id": id, "data-module": module,
      "data-inside": inside, "data-folders": folders?.join(" "), "data-modules": modules?.join(" "),
      tabindex: "-1", "aria-label": look.description,
    },
    drawn("title", {}, look.title ?? look.description),
    drawn("rect", { x, y, width, height, rx: roundingOf(look) }),
    labelText(look, { x: x + width / 2, y: y + height / 2 + 4 }),
  );
}

/** Returns the radius of a node's corners: folders have few, and what may be reached is round. */
function roundingOf({ classes }: Look) {
  return classes.includes("folder-node") ? 2 : classes.includes("may-be-reached") ? 12 : 7;
}

function labelText({ label, count }: Look, position: { x: number, y: number }) {
  const attributes = { class: "number", dx: 6, "data-all": count };
  return drawn("text", position, label, count === undefined ? count : drawn("tspan", attributes, count));
}
