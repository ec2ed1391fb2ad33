/**
 * The items that are drawn for a folder: its modules and folders. Some folders are boxes with items
 * inside, as long as there aren't too many items.
 */

import { type Folder, eachModuleBelow } from "./folders.js";

export interface Look {
  href: string;
  label: string;
  /** After the label */
  count?: string;
  /** Its whole name, for a pointer and for screen readers */
  description: string;
  /** For a pointer, if that is more */
  title?: string;
  classes: string;
}

export interface Item {
  id: string;
  type: "module" | "folder" | "box" | "flat" | "more";
  /** Of a module */
  module?: number;
  /** Of a folder, a box, or of the modules of a folder that are too many to be drawn (flat) */
  folder?: Folder;
  /** Of folders and modules that are drawn as one item (more) */
  folders?: Folder[];
  /** With these folders */
  modules?: number[];
  /** Where it isn't that of the others of its type */
  look?: Look;
  /** Inside of a box */
  items?: Item[];
  /** The box in which it is */
  parent?: Item;
  /** Of its modules */
  count: number;
}

/** Bounds of what is drawn. */
interface Detail {
  /** The most that are drawn, if there aren't more side by side */
  items: number;
  /** The most of one folder that are drawn; else they are one item */
  modules: number;
}

/** @returns the box of the scope */
export function boxOf(scope: Folder, detail: Detail): Item {
  const box = openBox(folderItem(scope), detail);
  const { items: inside = [] } = box;
  const closed = inside.filter(({ type }) => type === "folder");
  const sizeOf = (item: Item) => sizeIn(folderIn(item), detail);
  let count = inside.length;
  for (;;) {
    closed.sort((one, other) => sizeOf(one) - sizeOf(other));
    const [next] = closed;
    if (next === undefined || count + sizeOf(next) > detail.items) {
      return box;
    }
    closed.shift();
    const { items = [] } = openBox(next, detail);
    count += items.length;
    closed.push(...items.filter(({ type }) => type === "folder"));
  }
}

/** Returns the folder of an item that has one. */
export const folderIn = ({ folder }: Item): Folder => folder as Folder;

/** Counts the items of a folder; a folder that has only too many modules stays closed. */
function sizeIn({ folders, modules }: Folder, detail: Detail) {
  const isLarge = modules.length > detail.modules;
  return isLarge && folders.length === 0 ? Infinity : folders.length + (isLarge ? 1 : modules.length);
}

export function folderItem(folder: Folder): Item {
  return { id: `f${folder.index}`, type: "folder", folder, count: folder.count };
}

/** @returns the folder's own modules: one item, where they are more */
export function ownItems(folder: Folder, most: number): Item[] {
  const { modules, index } = folder;
  return modules.length > most
    ? [{ id: `o${index}`, type: "flat", folder, count: modules.length }]
    : modules.map((module) => ({ id: `m${module}`, type: "module", module, count: 1 }));
}

/** Makes a folder a box. Of too many folders inside, those with most modules are items of their own. */
function openBox(item: Item, detail: Detail) {
  const folder = folderIn(item);
  const modules = ownItems(folder, detail.modules);
  const room = Math.max(1, detail.items - modules.length);
  const isAll = folder.folders.length <= room;
  const largest = [...folder.folders].sort((one, other) => other.count - one.count);
  const kept = new Set(isAll ? largest : largest.slice(0, room - 1));
  item.type = "box";
  item.items = [...folder.folders.filter((each) => kept.has(each)).map(folderItem), ...modules];
  if (!isAll) {
    item.items.push(moreItem(folder, largest.filter((each) => !kept.has(each))));
  }
  item.items.forEach((each) => (each.parent = item));
  return item;
}

/** @returns one item for several folders and modules */
export function moreItem(folder: Folder, folders: Folder[], modules: number[] = []): Item {
  const count = folders.reduce((sum, each) => sum + each.count, modules.length);
  return { id: `x${folder.index}`, type: "more", folder, folders, modules, count };
}

/** Returns a box, which isn't drawn itself, around items. */
export function boxWith(items: Item[]): Item {
  const top: Item = { id: "top", type: "box", items, count: 0 };
  items.forEach((item) => (item.parent = top));
  return top;
}

/** Calls `act` with each module that an item, which is no box, stands for. */
export function eachModuleOf(item: Item, act: (module: number) => void) {
  const { type, module, folders = [], modules = [] } = item;
  if (type === "module") {
    act(Number(module));
  } else if (type === "flat") {
    folderIn(item).modules.forEach(act);
  } else if (type === "more") {
    folders.forEach((each) => eachModuleBelow(each, act));
    modules.forEach(act);
  } else {
    eachModuleBelow(folderIn(item), act);
  }
}
