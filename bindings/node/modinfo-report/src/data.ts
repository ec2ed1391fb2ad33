/**
 * The data of the page: an index, which the page's script reads at once, and parts with the modules'
 * texts and tables, which are read when a module is opened. Paths are from the report's folder.
 */

import { posix } from "node:path";

import { KINDS } from "modinfo-graph/internal/graph/pictures.js";
import { withinBounds } from "./excerpts.js";
import { type Edge, type Links, countEdges } from "./links.js";
import type { Details, Index, RowDetails } from "./page_data.js";
import type { Module } from "./project.js";
import type { Row } from "./rows.js";

/** What a report has, without the texts of its modules. */
export type Report = Pick<Index, "title" | "entries" | "lists" | "outside"> & { modules: Module[], edges: Edge[] };

/** `start` is its first module */
type Part = { start: number, modules: Details[] };

/** The bytes of text in a part, about. */
const PART = 400_000;

/** The index, which can be written as JSON. `starts` has the first module of each part. */
export function indexOf(
  { title, modules, edges, entries, lists, outside }: Report, starts: number[],
): Omit<Index, "absent"> {
  const folders = [...new Set(modules.map(({ path }) => posix.dirname(path)))].sort();
  const numbers = new Map(folders.map((folder, at) => [folder, at]));
  return {
    title,
    kinds: KINDS.map(({ kind, title: name, syntax, dash }) => ({ kind, title: name, syntax, dash })),
    folders,
    modules: modules.map(({ path }) => posix.basename(path)),
    inFolder: modules.map(({ path }) => numbers.get(posix.dirname(path)) as number),
    bytes: modules.map(({ source }) => (source === undefined ? 0 : Buffer.byteLength(source))),
    faults: Object.fromEntries(modules.flatMap(({ fault }, at) => (fault ? [[at, fault]] : []))),
    edgeCount: countEdges(edges),
    edges: flatEdges(modules.length, edges),
    entries, lists, outside, starts,
  };
}

/** For each of the modules the numbers of its edges: the target, the kind's index, the row and its line. */
function flatEdges(count: number, edges: Edge[]): number[][] {
  const kinds = KINDS.map(({ kind }) => kind);
  const flat: number[][] = Array.from({ length: count }, () => []);
  for (const { from, to, kind, row, line } of edges) {
    flat[from].push(to, kinds.indexOf(kind), row, line);
  }
  return flat;
}

/** Yields the modules' texts and tables in parts of about the same size. */
export function* partsOf(modules: Module[], links: Links): Generator<Part> {
  let part: Part = { start: 0, modules: [] };
  let size = 0;
  for (const [at, module] of withinBounds(modules).entries()) {
    const { source, pieces, lines, rows, marks } = module;
    if (size > PART) {
      yield part;
      part = { start: at, modules: [] };
      size = 0;
    }
    part.modules.push({
      source, pieces, lines,
      rows: rows.map((row) => rowData(row, links, modules[at].file)),
      marks: marks.map(({ from, to, row, kind }) => [from, to, row, kind]),
    });
    size += (source?.length ?? 0) + 100 * rows.length;
  }
  yield part;
}

/** @param file the path of its module */
function rowData(row: Row, links: Links, file: string): RowDetails {
  const { kind, word, name, range, attributes, mode, sideEffect, types } = row;
  return {
    kind, word, name, range, attributes, mode, sideEffect,
    to: links.target(row, file),
    types: types?.text,
    typesTo: links.typesTarget(row, file),
  };
}
