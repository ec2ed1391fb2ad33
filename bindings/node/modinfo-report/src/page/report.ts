/** The index that is written into the page, and functions that read it. */

import { nameParts } from "./controls.js";
import { textOf } from "./elements.js";
import type { Index, ShownKind } from "../page_data.js";

/** Numbers of an edge in a module's list: the target, the kind, the row and the line. */
const EDGE = 4;

export const report: Index = JSON.parse(textOf("data"));

/** The modules' paths from the report's folder. */
export const paths: string[] = report.modules.map((name, module) => {
  const folder = report.folders[report.inFolder[module]];
  return folder === "." ? name : `${folder}/${name}`;
});

const modulesOfCycles = (ran: boolean) => {
  return new Set(report.lists.cycles.filter(({ isRun }) => isRun === ran).flatMap(({ modules }) => modules));
};

/** The kinds whose edges run code; the others are of types and comments. */
const RUNS = new Set(["static", "dynamic", "require"]);
export const kindRuns = report.kinds.map(({ kind }) => RUNS.has(kind));

/** Is called with the module at the other end of an edge, and the edge's kind, row and line. */
type Act = (other: number, kind: number, row: number, line: number) => void;

function eachOf(flat: number[], act: Act) {
  for (let at = 0; at < flat.length; at += EDGE) {
    act(flat[at], flat[at + 1], flat[at + 2], flat[at + 3]);
  }
}

/** Calls a function with each edge from a module. */
export const eachEdge = (module: number, act: Act) => eachOf(report.edges[module], act);

/** For each module the edges that lead to it. */
let edgesTo: number[][] | undefined;

/** Calls a function with each edge to a module. */
export function eachImporter(module: number, act: Act) {
  edgesTo ??= turnedEdges();
  eachOf(edgesTo[module], act);
}

function turnedEdges() {
  const turned: number[][] = report.modules.map(() => []);
  report.modules.forEach((_, from) => {
    eachEdge(from, (to, kind, row, line) => turned[to].push(from, kind, row, line));
  });
  return turned;
}

/** The row of a module that leads to another one. */
export type Step = Record<"from" | "kind" | "row" | "line", number>;

/** @returns the rows that lead to it */
export function importers(module: number): Step[] {
  const found: Step[] = [];
  eachImporter(module, (from, kind, row, line) => found.push({ from, kind, row, line }));
  return found;
}

/** The states in which a module may be, with their titles and the modules that are in each. */
export const STATES: [state: string, title: string, modules: Set<number>][] = [
  ["entry", "entry", new Set(report.entries)],
  [
    "unreached", report.entries.length > 0 ? "unreached" : "imported by no module",
    new Set(report.lists.unreached),
  ],
  ["may-be-reached", "may be reached", new Set(report.lists.mayBeReached.map(({ module }) => module))],
  ["by-types", "reached by types alone", new Set(report.lists.byTypes.map(({ module }) => module))],
  ["cyclic", "in a cycle", modulesOfCycles(true)],
  ["type-cyclic", "in a cycle of types", modulesOfCycles(false)],
  ["faulty", "not analyzed", new Set(Object.keys(report.faults).map(Number))],
];

export function moduleStates(module: number): string[] {
  return STATES.filter(([, , modules]) => modules.has(module)).map(([state]) => state);
}

export const stateTitle = (state: string): string | undefined => STATES.find(([name]) => name === state)?.[1];

/** Splits a path in the folder with its slash, and the name. */
export function partsOf(path: string): [string, string] {
  const at = path.lastIndexOf("/") + 1;
  return [path.slice(0, at), path.slice(at)];
}

/** Returns a path in which invisible characters are shown by their names. */
export function visible(path: string): string {
  return nameParts(path).map(({ text, name }) => (name ? `[${name}]` : text)).join("");
}

/** Returns the title, the syntax and the dashes of a kind that there is. */
export function kindNamed(kind: string): ShownKind {
  return report.kinds.find((each) => each.kind === kind) as ShownKind;
}
