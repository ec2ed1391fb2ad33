/** What the options of the calls have in common, and what happens once a signal is aborted. */

import os from "node:os";

import type { Signal } from "modinfo/internal/types/calls.cjs";

/** @throws {TypeError} */
export function checkThat(isMet: unknown, message: string): asserts isMet {
  if (!isMet) {
    throw new TypeError(message);
  }
}

export function readJobs(jobs: unknown = os.availableParallelism?.() ?? os.cpus().length): number {
  const isCount = Number.isInteger(jobs) && Number(jobs) >= 1;
  checkThat(isCount, `jobs must be a whole number from 1 on, not ${String(jobs)}`);
  return Number(jobs);
}

/** The result of a call, which isn't made once a signal is aborted; then rejected with the reason. */
export async function unlessAborted<T>(signal: Signal | undefined, call: () => Promise<T>): Promise<T> {
  signal?.throwIfAborted();
  let takeBack = () => {};
  const aborted = new Promise<never>((_, reject) => {
    takeBack = onAbort(signal, () => reject(signal?.reason));
  });
  return Promise.race([call(), aborted]).finally(takeBack);
}

/** By each signal what is called. It has one listener: node warns of many. */
const calls: WeakMap<Signal, Set<() => void>> = new WeakMap();

/** Calls a function once a signal is aborted. Returns what takes the call back. */
export function onAbort(signal: Signal | undefined, call: () => void): () => void {
  if (!signal) {
    return () => {};
  }
  const all = calls.get(signal) ?? new Set();
  if (all.size === 0) {
    calls.set(signal, all);
    signal.addEventListener("abort", listener);
  }
  all.add(call);
  return () => {
    if (all.delete(call) && all.size === 0) {
      signal.removeEventListener("abort", listener);
    }
  };
}

function listener(event?: { target: unknown }) {
  [...calls.get(event?.target as Signal) ?? []].forEach((call) => call());
}
