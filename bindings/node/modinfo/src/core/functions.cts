/** The functions of the package, by promises and without. */

import { readSignal } from "./input.cjs";
import { Core } from "./instance.cjs";
import { type Plan, plans } from "./plans.cjs";
import { engine } from "./webassembly.cjs";
import type { Functions } from "../types/calls.cjs";

/** Returns the bytes of the module. */
export type Read = () => Uint8Array;

/** The module of an entry of the package, once it is there. */
class State {
  #read;
  #core: Core | undefined;
  #starting: Promise<void> | undefined;

  constructor(read: Read) {
    this.#read = read;
  }

  /** @throws {Error} it isn't there yet */
  get core() {
    if (!this.#core) {
      throw new Error("the module isn't loaded yet: call initSync, or wait for init");
    }
    return this.#core;
  }

  async init(): Promise<void> {
    if (!this.#core) {
      this.#starting ??= this.#load().finally(() => {
        this.#starting = undefined;
      });
      await this.#starting;
    }
  }

  /** @param source the module or its bytes */
  initSync(source?: object) {
    this.#core ??= new Core(source ?? this.#read());
  }

  async #load() {
    const module = await engine.compile(this.#read());
    this.#core ??= new Core(module, await engine.instantiate(module));
  }
}

/** Returns the functions by their names. The number is the place of the options among the arguments. */
export function functionsOf(read: Read): Functions {
  const state = new State(read);
  const now = <Words extends unknown[], Value>(planOf: (...words: Words) => Plan<Value>) => {
    return (...words: Words): Value => planOf(...words)(state.core);
  };
  const later = <Words extends unknown[], Value>(planOf: (...words: Words) => Plan<Value>, at: number) => {
    return async (...words: Words): Promise<Value> => {
      const plan = planOf(...words);
      const signal = readSignal(words[at] as { signal?: unknown } | undefined);
      signal?.throwIfAborted();
      await state.init();
      signal?.throwIfAborted();
      return plan(state.core);
    };
  };
  const { moduleInfo, checkSource, analyze, analyzeEstree, convert, reach, check } = plans;
  return {
    init: () => state.init(),
    initSync: (source) => state.initSync(source),
    moduleBytes: () => read(),
    moduleInfo: later(moduleInfo, 3),
    checkSource: later(checkSource, 3),
    analyze: later(analyze, 1),
    analyzeEstree: later(analyzeEstree, 4),
    convert: later(convert, 1),
    reach: later(reach, 1),
    check: later(check, 1),
    moduleInfoSync: now(moduleInfo),
    checkSourceSync: now(checkSource),
    analyzeSync: now(analyze),
    analyzeEstreeSync: now(analyzeEstree),
    convertSync: now(convert),
    reachSync: now(reach),
    checkSync: now(check),
  };
}
