/** What the page's script reads: the data that are written into the page, as JSON. */

import type { DrawnKind } from "modinfo-graph/internal/graph/pictures.js";
import type { Fault } from "modinfo-graph/internal/runtime/faults.js";
import type { Target } from "./links.js";
import type { Lists } from "./lists.js";
import type { Classes } from "./outside.js";
import type { Row } from "./rows.js";

/** The index, which is read at once. */
export interface Index {
  title: string;
  kinds: ShownKind[];
  /** The paths of folders, from the report's. */
  folders: string[];
  /** The names of modules, and of each the number of its folder. */
  modules: string[];
  inFolder: number[];
  /** The sizes of modules. */
  bytes: number[];
  faults: Record<number, Fault>;
  edgeCount: number;
  /** For each module the numbers of its edges: of each the target, the kind's number, the row and its line. */
  edges: number[][];
  entries: number[];
  lists: Lists;
  outside: Classes;
  /** The first module of each part. */
  starts: number[];
  /** Why a library isn't there, by its name. */
  absent: Record<string, string>;
}

export type ShownKind = Pick<DrawnKind, "kind" | "title" | "syntax" | "dash">;

/** A module's text and table, which are read when the module is opened. */
export interface Details {
  /** Missing where it couldn't be read, or is too long. */
  source?: string;
  /** Where lines are left out: for each piece its first line in `source`, and in the file. */
  pieces?: [number, number][];
  /** Count of the file's lines, if some are left out. */
  lines?: number;
  rows: RowDetails[];
  marks: MarkDetails[];
}

export interface RowDetails extends Omit<Row, "types" | "resolved"> {
  to?: Target;
  /** What a comment names. */
  types?: string;
  typesTo?: Target;
}

/** The offsets of a mark, its row and its kind. */
export type MarkDetails = [from: number, to: number, row: number, kind: string];
