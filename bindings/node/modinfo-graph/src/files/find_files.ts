/** Finds the files that paths name. */

import { type Dirent, readdirSync, statSync } from "node:fs";
import { join, sep } from "node:path";

import { FileFault, unlessThrown } from "../runtime/faults.js";
import { isComponent, isModule, isPage } from "./file_kinds.js";
import { realPath } from "./urls.js";

/** A file, perhaps left out, or a link that isn't followed (`isLeft`); `error` is why the path can't be read. */
export interface Found {
  path: string;
  /** The path without links in it, where it was found in a folder */
  real?: string;
  error?: Error;
  isLeft?: boolean;
  isExcluded?: boolean;
}

/**
 * Which files of folders are taken: what is left out and kept all the same has `isExcluded`; with `all` those in
 * `node_modules` and in folders whose names begin with a dot too; with `follow` links to files below no root,
 * which `roots` are besides the folder itself.
 */
type Options = Partial<Record<"isExcluded" | "isKept", (path: string) => boolean>>
  & Partial<Record<"all" | "follow" | "components", boolean>> & { roots?: string[] };

/**
 * The files of some paths, in their order. A path that is not a folder is taken as it is. Of a folder
 * the regular files are taken whose names end as those that are read, sorted by name, each folder in
 * its place. A link to a file is followed as long as it leads to a place below a root; one to a folder
 * never is.
 */
export async function* findFiles(
  paths: AsyncIterable<string> | Iterable<string>, options: Options,
): AsyncGenerator<Found, void> {
  const roots = realPaths(options.roots ?? []);
  for await (const path of paths) {
    if (isFolder(path)) {
      yield* filesBelow(path, options, [...realPaths([path]), ...roots]);
    } else {
      yield isThere(path) ? { path } : { path, error: new FileFault("Input", "no such file or folder") };
    }
  }
}

/** Yields the paths of a list: one per line, or each ended by a zero byte. */
export async function* readPaths(input: AsyncIterable<Uint8Array>, separator: "\n" | "\0") {
  const decoder = new TextDecoder();
  let begun = "";
  for await (const bytes of input) {
    const paths = (begun + decoder.decode(bytes, { stream: true })).split(separator);
    begun = paths.pop() ?? "";
    yield* paths.filter((path) => path !== "");
  }
  yield* [begun + decoder.decode()].filter((path) => path !== "");
}

function* filesBelow(folder: string, options: Options, roots: string[]): Generator<Found, void> {
  const todo: (Found | string)[] = [folder];
  for (let next = todo.pop(); next !== undefined; next = todo.pop()) {
    if (typeof next !== "string") {
      yield next;
      continue;
    }
    try {
      entriesOf(next, options, roots).forEach((entry) => todo.push(entry));
    } catch (reason) {
      yield { path: next, error: reason as Error };
    }
  }
}

/** The files and the paths of folders that are taken of a folder, the last first. */
function entriesOf(folder: string, options: Options, roots: string[]): (Found | string)[] {
  const { all, follow, isExcluded = () => false, isKept = () => false, components } = options;
  const isTaken = (name: string) => isModule(name) || (components && (isComponent(name) || isPage(name)));
  const entries = readdirSync(folder, { withFileTypes: true });
  entries.sort((one, other) => (one.name < other.name ? 1 : -1));
  const realFolder = realPath(folder);
  const [before, beforeReal] = [folder, realFolder ?? ""].map((each) => join(each, "_").slice(0, -1));
  const takenOf = (entry: Dirent): (Found | string)[] => {
    const { name } = entry;
    const path = before + name;
    const isOut = isExcluded(path);
    if (isOut && !isKept(path)) {
      return [];
    }
    if (entry.isDirectory()) {
      return all || !(name === "node_modules" || name.startsWith(".")) ? [path] : [];
    }
    const isLink = entry.isSymbolicLink();
    // A link to nothing is an error when it is read.
    if (!isTaken(name) || !(entry.isFile() || (isLink && (statusOf(path)?.isFile() ?? true)))) {
      return [];
    }
    const isLeft = isLink && !follow && leadsOut(path, roots);
    const real = isLink || realFolder === undefined ? undefined : beforeReal + name;
    return [{ path, real, ...(isLeft && { isLeft }), ...(isOut && { isExcluded: true }) }];
  };
  return entries.flatMap(takenOf);
}

/** Whether a link leads to a file that is below none of the roots, which are real paths. */
function leadsOut(path: string, roots: string[]) {
  const real = realPath(path);
  const isIn = (root: string) => real === root || real?.startsWith(root.endsWith(sep) ? root : root + sep);
  return real !== undefined && !roots.some(isIn);
}

const realPaths = (paths: string[]): string[] => paths.flatMap((path) => realPath(path) ?? []);

/** @returns true also where that can't be found out */
function isThere(path: string): boolean {
  try {
    return statSync(path, { throwIfNoEntry: false }) !== undefined;
  } catch (error) {
    return (error as NodeJS.ErrnoException).code !== "ERR_INVALID_ARG_VALUE";
  }
}

const statusOf = (path: string) => unlessThrown(() => statSync(path));
/** @returns false also where nothing is there */
export const isFolder = (path: string): boolean => statusOf(path)?.isDirectory() ?? false;
/** @returns false also where nothing is there, or no regular file */
export const isFile = (path: string): boolean => statusOf(path)?.isFile() ?? false;
