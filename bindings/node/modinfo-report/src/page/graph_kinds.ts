/** The kinds of edges in a graph, which are hidden, and the cycles in which modules and edges are. */

import { kindRuns, report } from "./report.js";

/** The kinds, the strongest first: an edge of several kinds is drawn as the strongest of them. */
const STRENGTH = ["static", "require", "dynamic", "type", "jsdoc", "pragma"];

/** Kinds that a click in the legend has hidden. */
export const hiddenKinds = new Set<string>();

/** Counts of the edges between two items, by their kinds. */
export type KindCounts = Map<string, number>;

/** @param kind the index of a kind */
export function countKind(kinds: KindCounts, kind: number) {
  const name = report.kinds[kind].kind;
  kinds.set(name, (kinds.get(name) ?? 0) + 1);
}

/** @returns the kind as which an edge is drawn */
export function strongestKind(kinds: KindCounts): string {
  return STRENGTH.find((kind) => kinds.has(kind)) ?? STRENGTH[0];
}

/** @returns as "static (2), type (1)"; without numbers where there is one edge */
export function kindsText(kinds: KindCounts): string {
  const titles = new Map<string, string>(report.kinds.map(({ kind, title }) => [kind, title]));
  const total = [...kinds.values()].reduce((sum, count) => sum + count, 0);
  const text = (kind: string) => (total === 1 ? titles.get(kind) : `${titles.get(kind)} (${kinds.get(kind)})`);
  return STRENGTH.filter((kind) => kinds.has(kind)).map(text).join(", ");
}

/** A cycle of what runs, or one that types close. */
export type CycleKind = "run" | "types";

/** For each module the number of its cycle of what runs, and of its cycle that types close. */
const numbers: Record<CycleKind, Map<number, number>> = { run: new Map(), types: new Map() };
report.lists.cycles.forEach(({ modules, isRun }, number) => {
  modules.forEach((module) => numbers[isRun ? "run" : "types"].set(module, number));
});

/** The cycles of what runs come before those that types close. */
export const CYCLES: CycleKind[] = ["run", "types"];

/** @returns the cycle in which a module is */
export function cycleOf(module: number): CycleKind | undefined {
  return CYCLES.find((each) => numbers[each].has(module));
}

/** The cycle that an edge is a part of, by the index of the edge's kind. */
export function cycleOfEdge(from: number, to: number, kind: number): CycleKind | undefined {
  const isIn = (each: CycleKind) => numbers[each].has(from) && numbers[each].get(from) === numbers[each].get(to);
  return CYCLES.find((each) => isIn(each) && (each === "types" || kindRuns[kind]));
}

/** @returns the first of both */
export function strongerCycle(one: CycleKind | undefined, other: CycleKind | undefined): CycleKind | undefined {
  return CYCLES.find((each) => each === one || each === other);
}
