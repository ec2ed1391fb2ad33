/** What is reached, and the cycles of a graph: sets of modules of which each leads to each other one. */

import { isRunKind } from "./references.js";

/**
 * Modules, ascending, and a shortest path from the first back to it, without its end. Edges that run close
 * the cycle; else edges of types, JSDoc or references, of which the path has one.
 */
export type Cycle = { modules: number[], path: number[], isRun: boolean };
type Edge = { from: number, to: number, kind: string };

/**
 * The cycles of the edges that run; and with them those that need other edges, of which each has
 * modules that no cycle of the first sort has together. By their first modules, those that run before others.
 */
export function cyclesOf(count: number, edges: Edge[]): Cycle[] {
  const running = edges.filter(({ kind }) => isRunKind(kind));
  const runs = successors(count, running);
  const next = running.length === edges.length ? runs : successors(count, edges);
  const run = components(runs);
  const groups = new Map(run.flatMap((modules, at) => modules.map((each) => [each, at] as const)));
  const isTogether = (one: number, other: number) => groups.has(one) && groups.get(one) === groups.get(other);
  const others = (next === runs ? [] : components(next))
    .filter((modules) => modules.some((each) => !isTogether(modules[0], each)));
  const joined = (modules: number[]) => {
    const inside = new Set(modules);
    const isJoin = (from: number) => (to: number) => inside.has(to) && !isTogether(from, to);
    const from = modules.find((each) => next[each].some(isJoin(each))) as number;
    const to = next[from].find(isJoin(from)) as number;
    return to === from ? [from] : [from, ...shortestWay(to, from, inside, next)];
  };
  const loop = (modules: number[]) => shortestWay(modules[0], modules[0], new Set(modules), runs);
  return [
    ...run.map((modules) => ({ modules, path: loop(modules), isRun: true })),
    ...others.map((modules) => ({ modules, path: joined(modules), isRun: false })),
  ].sort((one, other) => one.modules[0] - other.modules[0] || Number(other.isRun) - Number(one.isRun));
}

function successors(count: number, edges: Edge[]): number[][] {
  const next: number[][] = Array.from({ length: count }, () => []);
  edges.forEach(({ from, to }) => next[from].push(to));
  return next.map((each) => (each.length > 1 ? [...new Set(each)] : each));
}

/** A shortest way inside of a component, without its end. */
function shortestWay(start: number, end: number, component: Set<number>, next: number[][]): number[] {
  const before = ways([start], (node) => next[node].filter((to) => component.has(to)));
  return wayTo([...before.keys()].find((node) => next[node].includes(end)) as number, before);
}

/** The strongly connected components in which there is an edge, by Kosaraju's two searches. */
function components(next: number[][]): number[][] {
  const back: number[][] = next.map(() => []);
  next.forEach((all, from) => all.forEach((to) => back[to].push(from)));
  const isKnown = new Uint8Array(next.length);
  const found: number[][] = [];
  for (const root of leavingOrder(next).reverse()) {
    if (!isKnown[root]) {
      const component = [...ways([root], (node) => back[node].filter((each) => !isKnown[each])).keys()];
      component.forEach((each) => (isKnown[each] = 1));
      found.push(component.sort((one, other) => one - other));
    }
  }
  return found.filter(([node, ...others]) => others.length > 0 || next[node].includes(node));
}

/** The nodes in the order in which a search into depth leaves them, whose recursion is a list. */
function leavingOrder(next: number[][]): number[] {
  const order: number[] = [];
  const isEntered = new Uint8Array(next.length);
  for (const root of next.keys()) {
    /** From the root to the node that is looked at, with how many of its edges were. */
    const path = isEntered[root] ? [] : [{ node: root, at: 0 }];
    isEntered[root] = 1;
    for (let top = path.at(-1); top; top = path.at(-1)) {
      const to = next[top.node][top.at++];
      if (to === undefined) {
        order.push(top.node);
        path.pop();
      } else if (!isEntered[to]) {
        isEntered[to] = 1;
        path.push({ node: to, at: 0 });
      }
    }
  }
  return order;
}

/** All that some starts reach, the nearest first, each with the one that leads to it first; none for a start. */
export function ways<Key>(starts: Iterable<Key>, next: (key: Key) => Key[]): Map<Key, Key | undefined> {
  const before = new Map<Key, Key | undefined>([...starts].map((start) => [start, undefined]));
  // What is added meanwhile follows.
  for (const [key] of before) {
    next(key).filter((to) => !before.has(to)).forEach((to) => before.set(to, key));
  }
  return before;
}

export function wayTo<Key>(end: Key, before: Map<Key, Key | undefined>): Key[] {
  const way = [];
  for (let key: Key | undefined = end; key !== undefined; key = before.get(key)) {
    way.push(key);
  }
  return way.reverse();
}
