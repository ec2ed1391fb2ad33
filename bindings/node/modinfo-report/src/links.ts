/** Targets of the rows of a report's modules, and the edges of the graph. */

import { relative } from "node:path";
import { fileURLToPath } from "node:url";

import { isDeclaration } from "modinfo-graph/internal/files/file_kinds.js";
import { isRunKind, textOfArgument } from "modinfo-graph/internal/graph/references.js";
import { versions } from "./manifests.js";
import type { Ends, Resolution } from "modinfo-graph";
import type { Kind } from "modinfo-graph/internal/graph/pictures.js";
import type { Module } from "./project.js";
import type { Row } from "./rows.js";

export interface Target {
  /** The index of a module of the report, with nothing besides */
  module?: number;
  class?: Resolution["class"];
  /** The path of another file, from the report's folder */
  file?: string;
  /** A package's name */
  package?: string;
  /** Whether the package isn't installed */
  isAbsent?: boolean;
  /** Of the package, else the range in its user's package.json */
  version?: string;
}

/** A row whose target is a module */
export interface Edge {
  /** The index of a module */
  from: number;
  to: number;
  kind: Kind;
  /** The row's index in its module */
  row: number;
  /** From zero */
  line: number;
}

export class Links {
  #folder;
  #indexes;
  #version = versions();
  #found: WeakMap<Row, { name?: Target, types?: Target }> = new WeakMap();

  /** @param folder the report's */
  constructor(folder: string, modules: Module[]) {
    this.#folder = folder;
    this.#indexes = new Map(modules.map(({ key }, index) => [key, index]));
  }

  /** Nothing if the name of the row, of the module `user`, is unknown or partly known, or names no module. */
  target(row: Row, user: string): Target | undefined {
    return this.#targets(row, user).name;
  }

  /** The target of the types that the comment before a row names. */
  typesTarget(row: Row, user: string): Target | undefined {
    return this.#targets(row, user).types;
  }

  /** Returns the targets of a row, which are resolved once. */
  #targets(row: Row, user: string) {
    const { name, resolved, types } = row;
    const isKnown = name !== null && textOfArgument(name) !== undefined;
    const targets = this.#found.get(row) ?? {
      name: isKnown ? this.#target(resolved, user, runs(row)) : undefined,
      types: types && this.#target(types.resolved, user, false),
    };
    this.#found.set(row, targets);
    return targets;
  }

  /** @param isRun whether the target is the file that runs, not its types */
  #target(resolved: Resolution | undefined, user: string, isRun: boolean): Target | undefined {
    if (resolved === undefined) {
      return undefined;
    }
    const { class: name, file: ran, types, package: packageName } = resolved as Ends;
    const url = isRun ? ran ?? types : types ?? ran;
    const module = this.moduleAt(url);
    if (module !== undefined) {
      return { module };
    }
    const file = url && fileURLToPath(url);
    if (packageName !== undefined) {
      const version = this.#version(packageName, file, user);
      return { class: name, package: packageName, version, isAbsent: file === undefined || undefined };
    }
    return { class: name, file: file && relative(this.#folder, file) };
  }

  /** @returns the index of the module whose file it is */
  moduleAt(url: string | undefined): number | undefined {
    return url === undefined ? undefined : this.#indexes.get(url);
  }
}

/**
 * The edges of a report's graph, in the order of the modules and their rows. A row that runs has an edge to the
 * file that runs, and a second one, of types, if another module has its types.
 */
export function edgesOf(modules: Module[], links: Links): Edge[] {
  return modules.flatMap((module, from) => module.rows.flatMap((row, at) => {
    return edgesOfRow(module, row, links).map(([to, kind]) => {
      return { from, to, kind, row: at, line: row.range[0][0] };
    });
  }));
}

/** @returns the target and the kind of each */
function edgesOfRow({ file }: Module, row: Row, links: Links): [number, Kind][] {
  const kind = isDeclaration(file) ? "type" : kindOfRow(row);
  const { file: ran, types } = (row.resolved ?? {}) as Partial<Ends>;
  const beside = isRunKind(kind) && ran !== undefined ? links.moduleAt(types) : undefined;
  const end = (to: number | undefined, own: Kind): [number, Kind][] => (to === undefined ? [] : [[to, own]]);
  return [
    ...end(links.target(row, file)?.module, kind), ...end(beside, "type"),
    ...end(links.typesTarget(row, file)?.module, "type"),
  ];
}

/** @returns whether the row runs what it names */
const runs = ({ kind, word }: Row): boolean => isRunKind(kind) || word === "jsxImportSource";

/** @returns the kind of its edge: a compiler imports what JSX is made by */
function kindOfRow(row: Row): Kind {
  return row.kind !== "pragma" ? row.kind : runs(row) ? "static" : "type";
}

/** Counts the edges; those of one kind between two modules count once. */
export function countEdges(edges: Edge[]): number {
  return new Set(edges.map(({ from, to, kind }) => `${from} ${to} ${kind}`)).size;
}
