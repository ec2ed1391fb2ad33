/**
 * The folders of the report as a tree. A folder that has one folder and nothing else is replaced by
 * that folder.
 */

import { report } from "./report.js";

export interface Folder {
  /** In `folders` */
  index: number;
  /** From the report's folder, without a slash at its end; empty for the report's folder */
  path: string;
  /** Its path from its parent's */
  name: string;
  parent?: Folder;
  /** Inside, by name */
  folders: Folder[];
  /** Directly inside, by name */
  modules: number[];
  /** Of the modules below it */
  count: number;
  /** Of their files */
  bytes: number;
}

/** By their paths, the root first. */
export const folders: Folder[] = [];

/** For each module its folder. */
export const folderOf: Folder[] = [];

/** Returns the folder of a path; makes it, and the folders above it, if it isn't there yet. */
function folderAt(byPath: Map<string, Folder>, path: string): Folder {
  let folder = byPath.get(path);
  if (folder === undefined) {
    folder = { index: -1, path, name: path, folders: [], modules: [], count: 0, bytes: 0 };
    byPath.set(path, folder);
    if (path !== "") {
      const at = path.lastIndexOf("/");
      folderAt(byPath, path.slice(0, Math.max(0, at))).folders.push(folder);
    }
  }
  return folder;
}

const compareNames = (one: string, other: string) => (one < other ? -1 : Number(one > other));

/** Replaces folders that have one folder alone, counts, and sorts. */
function finish(folder: Folder, parent?: Folder): Folder {
  let kept = folder;
  while (kept.folders.length === 1 && kept.modules.length === 0) {
    [kept] = kept.folders;
  }
  kept.parent = parent;
  kept.name = parent && parent.path !== "" ? kept.path.slice(parent.path.length + 1) : kept.path;
  kept.index = folders.push(kept) - 1;
  kept.folders.sort((one, other) => compareNames(one.path, other.path));
  kept.modules.sort((one, other) => compareNames(report.modules[one], report.modules[other]));
  kept.folders = kept.folders.map((each) => finish(each, kept));
  kept.count = kept.folders.reduce((sum, { count }) => sum + count, kept.modules.length);
  const own = kept.modules.reduce((sum, module) => sum + report.bytes[module], 0);
  kept.bytes = kept.folders.reduce((sum, { bytes }) => sum + bytes, own);
  kept.modules.forEach((module) => (folderOf[module] = kept));
  return kept;
}

function readFolders() {
  const byPath = new Map<string, Folder>();
  const top = folderAt(byPath, "");
  report.inFolder.forEach((number, module) => {
    const path = report.folders[number];
    folderAt(byPath, path === "." ? "" : path).modules.push(module);
  });
  return finish(top);
}

/** The folder that has all modules. */
export const root = readFolders();

/** @returns the folders above it, the root first, and the folder itself */
export function chainOf(folder: Folder): Folder[] {
  const chain: Folder[] = [];
  for (let at: Folder | undefined = folder; at !== undefined; at = at.parent) {
    chain.unshift(at);
  }
  return chain;
}

/** @param act is called with each module below it */
export function eachModuleBelow(folder: Folder, act: (module: number) => void) {
  folder.modules.forEach(act);
  folder.folders.forEach((each) => eachModuleBelow(each, act));
}
