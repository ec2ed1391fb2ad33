/** The lists of a report: modules and dependencies to look at first. */

import { relative } from "node:path";
import { fileURLToPath } from "node:url";

import { isRunKind } from "modinfo-graph/internal/graph/references.js";
import type { Cycle as FoundCycle, ReasonKind, Unreached as FoundUnreached } from "modinfo-graph";
import type { Cycle as RunCycle } from "modinfo-graph/internal/graph/cycles.js";
import type { ModuleGraph } from "modinfo-graph/internal/graph/module_graph.js";
import type { Kind } from "modinfo-graph/internal/graph/pictures.js";
import type { Edge, Links, Target } from "./links.js";
import type { Module } from "./project.js";
import type { Row } from "./rows.js";

/** A row of a module, by their indexes */
export interface Found {
  module: number;
  row: number;
  /** From zero */
  line: number;
  kind: Kind;
  name: Row["name"];
}

/** `isOfTypes`: whether a compiler may remove its imports */
type Cycle = RunCycle & { isOfTypes?: boolean };

/** Each row leads from a module of the path to the next one */
export type ShownCycle = Cycle & { rows: Found[] };

/** Modules are indexes */
interface Unreached {
  unreached: number[];
  mayBeReached: MayBeReached[];
  byTypes: Omit<MayBeReached, "kind">[];
}

/** `by` is the module that has the reason, else `file` the path of another file, from the report's folder */
export interface MayBeReached {
  module: number;
  kind: ReasonKind;
  by?: number;
  file?: string;
  /** From zero */
  line?: number;
  text?: string;
}

/** `unknown` and `partly` are arguments */
export interface Lists extends Unreached, Record<"missing" | "unknown" | "partly", Found[]> {
  cycles: ShownCycle[];
  faults: number[];
}

export function listsOf(
  modules: Module[], links: Links, edges: Edge[], { unreached, cycles }: { unreached: Unreached, cycles: Cycle[] },
): Lists {
  const isMissing = (target: Target | undefined) => target?.class === "missing";
  const rowsThat = (has: (row: Row, file: string) => boolean) => modules.flatMap(({ rows, file }, module) => {
    return rows.flatMap((each, row) => (has(each, file) ? [foundRow(modules, { module, row })] : []));
  });
  const missing = [
    ...rowsThat((row, file) => isMissing(links.target(row, file))),
    ...rowsThat((row, file) => isMissing(links.typesTarget(row, file))).map((found) => {
      return { ...found, name: modules[found.module].rows[found.row].types?.text ?? null };
    }),
  ];
  return {
    missing: missing.sort((one, other) => one.module - other.module || one.row - other.row),
    unknown: rowsThat(({ name }) => name === null),
    partly: rowsThat(({ name }) => Array.isArray(name)),
    ...unreached,
    cycles: cycles.map((cycle) => {
      return { ...cycle, rows: rowsOn(cycle, edges).map((edge) => foundRow(modules, edge)) };
    }),
    faults: modules.flatMap(({ fault }, module) => (fault ? [module] : [])),
  };
}

/** The cycles of a graph, by the indexes of the report's modules: by their first modules, those that run first. */
export function shownCycles(graph: ModuleGraph, indexOf: (key: string) => number): Cycle[] {
  const { cycles, typeCycles } = graph.withTypes().cycles();
  const shown = (isRun: boolean) => (cycle: FoundCycle): Cycle => ({
    modules: cycle.modules.map(indexOf), path: cycle.path.map(indexOf), isRun,
    ...(cycle.perhapsOfTypes && { isOfTypes: true }),
  });
  return [...cycles.map(shown(true)), ...typeCycles.map(shown(false))]
    .sort((one, other) => one.modules[0] - other.modules[0] || Number(other.isRun) - Number(one.isRun));
}

/** The classes of what no entry reaches, by the indexes of the report's modules. */
export function shownUnreached(
  { unreached, mayBeReached, byTypes }: FoundUnreached,
  { folder, links }: { folder: string, links: Links },
): Unreached {
  const indexOf = (key: string) => links.moduleAt(key) as number;
  const sourceOf = (key: string) => {
    const by = links.moduleAt(key);
    return { by, file: by === undefined ? relative(folder, fileURLToPath(key)) : undefined };
  };
  return {
    unreached: unreached.map(indexOf),
    mayBeReached: mayBeReached.map(({ module, reason: { kind, module: from, position, text } }) => {
      return { module: indexOf(module), kind, ...sourceOf(from), line: position?.[0], text };
    }),
    byTypes: byTypes.map(({ module, by: { module: from, reference: { range: [[line]], specifier } } }) => {
      return { module: indexOf(module), ...sourceOf(from), line, text: specifier };
    }),
  };
}

function foundRow(modules: Module[], { module, row }: { module: number, row: number }): Found {
  const { kind, name, range } = modules[module].rows[row];
  return { module, row, line: range[0][0], kind, name };
}

/** The rows that make a cycle's path: of several between two modules one that runs, where there is one. */
function rowsOn({ path }: Cycle, edges: Edge[]): { module: number, row: number }[] {
  const next = new Map(path.map((from, at) => [from, path[(at + 1) % path.length]]));
  const chosen: Map<number, Edge> = new Map();
  for (const edge of edges) {
    const before = chosen.get(edge.from);
    if (next.get(edge.from) === edge.to && (!before || (isRunKind(edge.kind) && !isRunKind(before.kind)))) {
      chosen.set(edge.from, edge);
    }
  }
  return path.map((module) => ({ module, row: chosen.get(module)?.row ?? 0 }));
}
