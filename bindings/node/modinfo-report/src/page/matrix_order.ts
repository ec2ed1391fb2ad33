/**
 * The rows and the marks of a matrix: folder by folder, and in each folder a module before those that it leads to,
 * so that marks on the other side of the diagonal are edges between folders or of cycles.
 */

import { eachPair } from "./graph_edges.js";
import { type CycleKind, type KindCounts, countKind, cycleOfEdge, strongerCycle } from "./graph_kinds.js";
import { report } from "./report.js";
import type { Folder } from "./folders.js";

/** An edge from the module of a row to that of a column */
export interface Mark {
  row: number;
  column: number;
  kinds: KindCounts;
  /** Of which the edge is a part */
  cycle?: CycleKind;
}

/** The rows of a folder */
export type Band = { folder: Folder, start: number, end: number };

/** `marks` by their rows */
export type Matrix = { modules: number[], marks: Mark[][], bands: Band[] };

/** @param isOwn whether the modules of its folders are left out */
export function matrixOf(folder: Folder, isOwn: boolean): Matrix {
  const modules: number[] = [];
  const bands: Band[] = [];
  const add = (each: Folder) => {
    const start = modules.length;
    modules.push(...sortedByEdges(each.modules));
    (isOwn ? [] : each.folders).forEach(add);
    if (each !== folder) {
      bands.push({ folder: each, start, end: modules.length });
    }
  };
  add(folder);
  const rowOf = new Int32Array(report.modules.length).fill(-1);
  modules.forEach((module, row) => (rowOf[module] = row));
  return { modules, bands: bands.reverse(), marks: modules.map((module, row) => marksOfRow(module, row, rowOf)) };
}

function marksOfRow(module: number, row: number, rowOf: Int32Array): Mark[] {
  const marks = new Map<number, Mark>();
  eachPair(module, (to, kind) => {
    const column = rowOf[to];
    if (column >= 0) {
      const mark: Mark = marks.get(column) ?? { row, column, kinds: new Map() };
      marks.set(column, mark);
      countKind(mark.kinds, kind);
      mark.cycle = strongerCycle(mark.cycle, cycleOfEdge(module, to, kind));
    }
  });
  return [...marks.values()];
}

/** Sorts modules so that each is before those that it leads to, as far as there is no cycle. */
function sortedByEdges(modules: number[]): number[] {
  const inside = new Set(modules);
  const next = new Map(modules.map((module): [number, number[]] => [module, []]));
  const led = new Set();
  modules.forEach((module) => eachPair(module, (to) => {
    if (inside.has(to)) {
      next.get(module)?.push(to);
      led.add(to);
    }
  }));
  const seen = new Set<number>();
  const ended: number[] = [];
  for (const start of [...modules.filter((module) => !led.has(module)), ...modules]) {
    const path = seen.has(start) ? [] : [start];
    seen.add(start);
    // A module ends after all that it leads to.
    while (path.length > 0) {
      const last = path[path.length - 1];
      const to = next.get(last)?.pop();
      if (to === undefined) {
        path.pop();
        ended.push(last);
      } else if (!seen.has(to)) {
        seen.add(to);
        path.push(to);
      }
    }
  }
  return ended.reverse();
}
