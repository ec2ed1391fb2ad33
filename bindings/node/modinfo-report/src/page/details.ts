/** Reads the modules' texts and tables, which are compressed in the page in parts of several modules. */

import { textOf } from "./elements.js";
import { report } from "./report.js";
import type { Details } from "../page_data.js";

/** TypeScript 4.8 doesn't know it. */
declare const DecompressionStream: new (format: "deflate") => GenericTransformStream;

/** The most parts that are kept. */
const KEPT = 8;

/** The parts that are kept, by their numbers, the last used at the end. */
const parts = new Map<number, Promise<Details[]>>();

export async function detailsOf(module: number): Promise<Details> {
  const number = partOf(module);
  const part = parts.get(number) ?? read(number);
  parts.delete(number);
  parts.set(number, part);
  if (parts.size > KEPT) {
    parts.delete(parts.keys().next().value as number);
  }
  return (await part)[module - report.starts[number]];
}

/** Returns the number of a module's part: the last one that begins with the module or before it. */
function partOf(module: number) {
  let [low, high] = [0, report.starts.length - 1];
  while (low < high) {
    const middle = Math.ceil((low + high) / 2);
    [low, high] = report.starts[middle] <= module ? [middle, high] : [low, middle - 1];
  }
  return low;
}

async function read(number: number): Promise<Details[]> {
  const binary = atob(textOf(`part-${number}`));
  const bytes = Uint8Array.from(binary, (character) => character.charCodeAt(0));
  const stream = new Blob([bytes]).stream().pipeThrough(new DecompressionStream("deflate"));
  return new Response(stream).json();
}
