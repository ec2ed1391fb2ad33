/** Kinds of names that modules have for others, by how they begin. */

import { join, resolve as absolute } from "node:path";

const PACKAGE = /^(@[^/]*\/[^/]*|[^@/][^/]*)(\/.*)?$/s;
const NO_PACKAGE = /^\.|[%\\?#]/;
/** Whether a name is a path: `/a`, `./a`, `../a`, `.` or `..`. */
export const isPath = (name: string): boolean => /^(?:\/|\.{1,2}(?:\/|$))/.test(name);
/** Whether a name is a path that doesn't begin with a slash. */
export const isRelative = (name: string): boolean => /^\.{1,2}(?:\/|$)/.test(name);
/** Whether a name can be no package's, but one of a bundler's alias: `@/a`, `~/a`, `$a/b`, `#a`, `virtual:a`. */
export const isAlias = (name: string): boolean => /^(?:@\/|@@|[~$#]|virtual:)/.test(name);
/** Whether a `require` never takes a file for a name. */
export const isFolderName = (name: string): boolean => /(?:^|\/)\.{0,2}$/.test(name);
export const schemeOf = (name: string) => /^([a-z][a-z0-9+.-]+):/i.exec(name)?.[1].toLowerCase();

/** @returns what follows the first slash of a bare name; without one, the name without marks at its beginning */
export function tailOf(name: string): string {
  return name.includes("/") ? name.slice(name.indexOf("/") + 1) : name.replace(/^(?:virtual:|\W+)/, "");
}

/** @returns the absolute path of a name, with a slash at its end if the name can't be a file's */
export function pathOf(name: string, folder: string): string {
  const path = absolute(folder, name);
  return isFolderName(name) ? join(path, "/") : path;
}

/** `rest` is nothing, or a path that begins with a slash */
export type PackageName = { name: string, rest: string };

/** The package of a name that is no path, no URL, and none of `imports`; nothing where none can have the name. */
export function packageName(specifier: string): PackageName | undefined {
  const [, name = "", rest = ""] = PACKAGE.exec(specifier) ?? [];
  return name === "" || NO_PACKAGE.test(name) ? undefined : { name, rest };
}

export const typesOf = (name: string): string => `@types/${name.replace(/^@/, "").replace("/", "__")}`;

/** @returns like `packageName`; nothing for a path, a URL, and a name of `imports` */
export function packageOf(specifier: string): PackageName | undefined {
  const isOther = schemeOf(specifier) || specifier.startsWith("#") || isPath(specifier);
  return isOther ? undefined : packageName(specifier);
}
