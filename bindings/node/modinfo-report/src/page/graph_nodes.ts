/** The look of an item of a graph. */

import { cycleOf } from "./graph_kinds.js";
import { shortLabel } from "./graph_layout.js";
import { type Item, type Look, eachModuleOf } from "./graph_tree.js";
import { counted, hashOf, weightText } from "./pieces.js";
import { moduleStates, paths, report, visible } from "./report.js";
import type { Folder } from "./folders.js";

export function lookOf(item: Item): Look {
  if (item.look) {
    return item.look;
  }
  switch (item.type) {
    case "module": return moduleLook(Number(item.module), report.modules[Number(item.module)]);
    case "flat": return flatLook(item);
    case "more": return moreLook(item);
    default: return folderLook(item);
  }
}

/** @param most the most characters of the label */
export function moduleLook(module: number, label: string, most?: number): Look {
  const description = visible(paths[module]);
  return {
    href: hashOf(module), label: shortLabel(visible(label), most), description,
    title: `${description}: ${weightText(module)}`, classes: moduleStates(module).join(" "),
  };
}

/** Returns the states of an item that has modules in a cycle. */
function cyclesIn(item: Item) {
  const found = new Set<string | undefined>();
  eachModuleOf(item, (module) => found.add(cycleOf(module)));
  return [["run", "cyclic"], ["types", "type-cyclic"]].filter(([cycle]) => found.has(cycle))
    .map(([, state]) => state).join(" ");
}

function folderLook(item: Item): Look {
  const { type, parent } = item;
  const folder = item.folder as Folder;
  const above = parent?.folder?.path ?? "";
  const name = above === "" ? folder.path : folder.path.slice(above.length + 1);
  const path = visible(folder.path);
  return {
    href: `#folder-${folder.index}`, label: `${shortLabel(visible(name))}/`,
    count: folder.count.toLocaleString("en"), description: `${path}/: ${counted(folder.count, "module")}`,
    classes: type === "box" ? "" : `folder-node ${cyclesIn(item)}`.trim(),
  };
}

function flatLook(item: Item): Look {
  const { count } = item;
  const folder = item.folder as Folder;
  const label = counted(count, "module");
  return {
    href: `#flat-${folder.index}`, label, classes: `folder-node flat ${cyclesIn(item)}`.trim(),
    description: `${visible(folder.path)}/: ${label} that are directly in it`,
  };
}

export function moreLook(item: Item, href = `#more-${item.folder?.index}`): Look {
  const { folders = [], modules = [], count } = item;
  const isPlain = folders.length === 0;
  const words = isPlain ? "more module" : modules.length === 0 ? "more folder" : "more folders and module";
  const label = counted(folders.length + modules.length, words);
  return {
    href, label, ...(!isPlain && { count: count.toLocaleString("en") }),
    classes: `folder-node more ${cyclesIn(item)}`.trim(),
    description: isPlain ? label : `${label} with ${counted(count, "module")}`,
  };
}

/** Returns the function of labels: paths without the folders that all modules are in. */
export function labelsOf(modules: number[]): (module: number) => string {
  const folders = modules.map((module) => paths[module].split("/").slice(0, -1));
  const [first = []] = folders;
  let common = 0;
  while (common < first.length && folders.every((each) => each[common] === first[common])) {
    common++;
  }
  const length = first.slice(0, common).join("/").length;
  return (module) => paths[module].slice(length > 0 ? length + 1 : 0);
}
