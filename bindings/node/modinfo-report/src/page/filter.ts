/** The modules that match the filter. */

import { type Folder, folderOf, folders } from "./folders.js";
import { paths } from "./report.js";

export interface Matches {
  /** Whether nothing is filtered */
  isAll: boolean;
  /** For each module 1 if it matches */
  isShown: Uint8Array;
  /** Of the modules that match */
  count: number;
  /** For each folder, the count of those directly in it */
  inFolder: number[];
  /** For each folder, the count of those in it and in its folders */
  below: number[];
}

const texts = paths.map((path) => path.toLowerCase());

/** @param text words, each of which the path has to have */
export function matchesOf(text: string): Matches {
  const words = text.toLowerCase().split(/\s+/u).filter((word) => word !== "");
  const isShown = new Uint8Array(texts.length);
  const inFolder: number[] = new Array(folders.length).fill(0);
  let count = 0;
  texts.forEach((path, module) => {
    if (words.every((word) => path.includes(word))) {
      isShown[module] = 1;
      inFolder[folderOf[module].index]++;
      count++;
    }
  });
  const below = [...inFolder];
  // Each folder is after its parent.
  for (let at = folders.length - 1; at > 0; at--) {
    below[(folders[at].parent as Folder).index] += below[at];
  }
  return { isAll: words.length === 0, isShown, count, inFolder, below };
}

/** Fades in a graph each node without a match, with its edges, and counts the matches in folders. */
export function fadeGraph(drawing: SVGElement, matches: Matches) {
  const faded = new Set<string | undefined>();
  for (const node of drawing.querySelectorAll<SVGElement>(".node, .frame")) {
    const count = countIn(node.dataset, matches);
    node.classList.toggle("left-out", count === 0);
    if (count === 0) {
      faded.add(node.dataset.id);
    }
    const number = node.querySelector<SVGElement>(".number");
    if (number) {
      const { all } = number.dataset;
      // Not longer than the count of all, for which the box has room.
      number.textContent = matches.isAll ? all ?? "" : count.toLocaleString("en");
    }
  }
  for (const edge of drawing.querySelectorAll<SVGElement>("[data-from]")) {
    edge.classList.toggle("left-out", faded.has(edge.dataset.from) || faded.has(edge.dataset.to));
  }
}

/** The count of matches that a node of a graph stands for. */
function countIn(
  { module, inside, folders: all = "", modules: own = "" }: DOMStringMap, { isShown, inFolder, below }: Matches,
): number {
  if (module !== undefined) {
    return isShown[Number(module)];
  }
  const sum = (text: string, counts: ArrayLike<number>) => {
    return text === "" ? 0 : text.split(" ").reduce((count, each) => count + counts[Number(each)], 0);
  };
  return inside === undefined ? sum(all, below) + sum(own, isShown) : inFolder[Number(inside)];
}
