/** The shortest paths to modules from the entries, or without entries from the modules that none leads to. */

import { type Step, eachEdge, kindRuns, report } from "./report.js";

/** By modules the last edge of a shortest path to each; undefined where a path begins, and where none ends. */
let steps: Step[] | undefined;

/** The modules where paths begin. */
const starts = new Set<number>(report.entries.length > 0 ? report.entries : report.lists.unreached);

/** @returns the edges of a shortest path, which run if there is such a path; nothing if there is no path */
export function wayTo(module: number): Step[] | undefined {
  steps ??= allSteps();
  if (starts.has(module)) {
    return [];
  }
  const way: Step[] = [];
  for (let step = steps[module]; step !== undefined; step = steps[step.from]) {
    way.unshift(step);
  }
  return way.length > 0 ? way : undefined;
}

/** Searches breadth first by edges that run, then from all reached modules by the other edges too. */
function allSteps() {
  const found: Step[] = [];
  const reached = new Set(starts);
  for (const isFollowed of [(kind: number) => kindRuns[kind], () => true]) {
    for (const from of reached) {
      eachEdge(from, (to, kind, row, line) => {
        if (!reached.has(to) && isFollowed(kind)) {
          reached.add(to);
          found[to] = { from, kind, row, line };
        }
      });
    }
  }
  return found;
}

/** Of modules with all that they run. */
const weights: Map<number, { bytes: number, count: number }> = new Map();

/** The bytes of a module and of all that it runs, and how many modules these are. */
export function weightOf(module: number): { bytes: number, count: number } {
  let weight = weights.get(module);
  if (weight === undefined) {
    const seen = new Set([module]);
    let bytes = 0;
    for (const each of seen) {
      bytes += report.bytes[each];
      eachEdge(each, (to, kind) => kindRuns[kind] && seen.add(to));
    }
    weight = { bytes, count: seen.size };
    weights.set(module, weight);
  }
  return weight;
}
