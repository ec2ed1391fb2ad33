/** Names that lead to no module of the report, by class. */

import type { Links, Target } from "./links.js";
import type { Module } from "./project.js";

export interface Outside {
  /** Of a package, a builtin module or a file */
  name: string;
  /** Of a package */
  version?: string;
  /** Whether a package isn't installed */
  isAbsent?: boolean;
  /** The module, the row and the line (from zero) of each dependency, one after the other */
  users: number[];
}

export interface Classes {
  packages: Outside[];
  /** Modules of Node.js */
  builtins: Outside[];
  /** Files that are no modules */
  assets: Outside[];
  /** Modules that aren't of the report */
  files: Outside[];
  urls: Outside[];
}

const CLASSES: Record<string, keyof Classes> = {
  package: "packages", builtin: "builtins", asset: "assets", file: "files", outside: "files",
  url: "urls", npm: "urls", jsr: "urls", data: "urls",
};

/** @returns each by name */
export function outsideOf(modules: Module[], links: Links): Classes {
  const found: Record<keyof Classes, Map<string, Outside>> = {
    packages: new Map(), builtins: new Map(), assets: new Map(), files: new Map(), urls: new Map(),
  };
  modules.forEach(({ rows, file }, module) => rows.forEach((each, row) => {
    const user = [module, row, each.range[0][0]];
    add(found, links.target(each, file), each.name as string, user);
    add(found, links.typesTarget(each, file), each.types?.text ?? "", user);
  }));
  const lists = Object.entries(found).map(([list, items]) => [list, [...items.values()].sort(byName)]);
  return Object.fromEntries(lists);
}

function add(
  found: Record<keyof Classes, Map<string, Outside>>, target: Target | undefined, specifier: string,
  user: number[],
) {
  const list = target?.class && CLASSES[target.class];
  if (!list) {
    return;
  }
  const name = target.package ?? target.file ?? specifier.replace(/^node:/, "");
  const key = `${name} ${target.version ?? ""} ${target.isAbsent}`;
  const { version, isAbsent } = target;
  const item = found[list].get(key) ?? { name, version, isAbsent, users: [] };
  item.users.push(...user);
  found[list].set(key, item);
}

const byName = (one: Outside, other: Outside) => (one.name < other.name ? -1 : Number(one.name > other.name));
