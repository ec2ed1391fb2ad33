/** Finds what files depend on, by the program `modinfo` where there is one, else by its WebAssembly module. */

import { resolve as absolute } from "node:path";
import { fileURLToPath } from "node:url";

import {
  ProgramEnd, analyze, analyzeEstree, check, checkSource, convert, moduleInfo, reach,
} from "modinfo";
import { checkKnown, readSignal } from "modinfo/internal/core/input.cjs";
import { checkProgram, modinfoPath } from "./files/program.js";
import { readProject } from "./graph/read_graph.js";
import { Resolver, type ResolverOptions as ResolverTask } from "./graph/resolver.js";
import { unledOf, unreachedOf } from "./graph/unreached.js";
import { checkThat, readJobs, unlessAborted } from "./runtime/call_options.js";
import type { ModuleInfo, Signal, Url } from "modinfo";
import type { Graph, ResolvedModuleInfo } from "./graph/graph.cjs";
import type {
  Calls, GraphOptions, ModinfoOptions, OfTexts, ResolveOptions, ResolverOptions,
} from "./options.cjs";

export * from "modinfo";
export * from "./options.cjs";

const OF_TEXTS = { analyze, analyzeEstree, check, checkSource, convert, moduleInfo, reach };
const RESOLVER_OPTIONS = ["tsconfig", "conditions", "root"];
const GRAPH_OPTIONS = [
  "paths", "entries", "exclude", "ignore", "gitignore", "all", "types", "dynamic", "jobs", "resolve",
  ...RESOLVER_OPTIONS, "signal",
];

type Call = (...words: unknown[]) => Promise<unknown>;

export interface Modinfo extends OfTexts {}

export class Modinfo implements Calls {
  #program;
  #jobs;
  #underWay = new Set<Promise<unknown>>();
  #isClosed = false;

  static {
    const calls = this.prototype as unknown as Record<string, Call>;
    for (const [name, call] of Object.entries(OF_TEXTS as Record<string, Call>)) {
      calls[name] = function (this: Modinfo, ...words) {
        return this.#track(() => call(...words));
      };
    }
  }

  /** @throws {TypeError} an option isn't what it has to be */
  constructor(options: ModinfoOptions = {}) {
    checkKnown(options, ["program", "jobs"]);
    this.#jobs = readJobs(options.jobs);
    const { program } = options;
    const isPath = program === undefined || (typeof program === "string" && program !== "");
    checkThat(isPath, `program must be a path, not ${String(program)}`);
    this.#program = program === undefined ? undefined : absolute(program);
  }

  async resolve(...[information, options]: Parameters<Calls["resolve"]>) {
    const { path, resolver } = readResolveOptions(information, options);
    readSignal(options)?.throwIfAborted();
    return this.#track(async () => {
      const copy = structuredClone(information);
      new Resolver(resolver).resolveInfo(copy, path);
      return copy as ResolvedModuleInfo;
    });
  }

  async graph(...[options]: Parameters<Calls["graph"]>) {
    const task = readGraphOptions(options, { program: this.#program ?? modinfoPath(), jobs: this.#jobs });
    const signal = readSignal(options);
    return this.#track(() => unlessAborted(signal, () => graphOf(task, signal)));
  }

  async close() {
    this.#isClosed = true;
    await Promise.allSettled(this.#underWay);
  }

  [Symbol.asyncDispose](): Promise<void> {
    return this.close();
  }

  /** A call that `close` waits for. */
  async #track<T>(call: () => Promise<T>): Promise<T> {
    if (this.#isClosed) {
      throw new ProgramEnd("modinfo is closed");
    }
    const result = call();
    this.#underWay.add(result);
    return result.finally(() => this.#underWay.delete(result));
  }
}

/** @throws {TypeError} with what is wrong, as all that read options */
function readResolveOptions(info: ModuleInfo, options: Partial<ResolveOptions> = {}) {
  checkKnown(options, ["specifier", "types", ...RESOLVER_OPTIONS, "signal"]);
  checkThat(typeof info === "object" && info !== null, `a ModuleInfo must be an object, not ${String(info)}`);
  const { specifier, types = false } = options;
  const path = pathOf(specifier, "specifier");
  const isUrl = textOf(specifier)?.startsWith("file:");
  checkThat(isUrl, `specifier must be the URL of a file, not ${String(specifier)}`);
  return { path, resolver: { types, ...readResolverOptions(options) } };
}

function readResolverOptions({ tsconfig, conditions = [], root = [] }: ResolverOptions): ResolverTask {
  const areNames = Array.isArray(conditions) && conditions.every((each) => /^[^\s=]+$/.test(each));
  checkThat(areNames, "conditions must be an array of names");
  const roots = [root].flat();
  return {
    conditions,
    ...(tsconfig !== undefined && { tsconfig: pathOf(tsconfig, "tsconfig") }),
    ...(roots.length > 0 && { root: roots.map((each) => pathOf(each, "root")) }),
  };
}

/** The absolute path of an option, which is a path or the URL of a file. */
function pathOf(value: unknown, name: string): string {
  const text = textOf(value);
  checkThat(text, `${name} must be a path or the URL of a file, not ${String(value)}`);
  return text !== value || text.startsWith("file:") ? fileURLToPath(text) : absolute(text);
}

function textOf(value: unknown): string | undefined {
  const text = (value as Partial<Url> | null | undefined)?.href ?? value;
  return typeof text === "string" ? text : undefined;
}

function readGraphOptions(options: GraphOptions = {}, standard: { program: string, jobs: number }) {
  checkKnown(options, GRAPH_OPTIONS);
  const { paths = [], entries = [], exclude = [], ignore = [], resolve } = options;
  const { gitignore = false, all = false, types = false, dynamic = true } = options;
  const jobs = readJobs(options.jobs ?? standard.jobs);
  const areLists = [paths, entries, exclude, ignore].every(Array.isArray) && paths.length + entries.length > 0;
  checkThat(areLists, "paths or entries must be given; paths, entries, exclude and ignore must be arrays");
  const areFlags = [gitignore, all, types, dynamic].every((each) => typeof each === "boolean");
  checkThat(areFlags, "gitignore, all, types and dynamic must be true or false");
  const isHook = resolve === undefined || typeof resolve === "function";
  checkThat(isHook, `resolve must be a function, not ${String(resolve)}`);
  return {
    paths: paths.map((path) => pathOf(path, "a path")),
    entries: entries.map((path) => pathOf(path, "an entry")),
    exclude: exclude.map(String), ignore: ignore.map(String), gitignore, all, types, dynamic, jobs, resolve,
    resolver: { types, ...readResolverOptions(options) },
    program: standard.program,
  };
}

/** @returns rejected with an `EntryFault`, a `GlobFault` or a `GitFault` */
async function graphOf(task: ReturnType<typeof readGraphOptions>, signal?: Signal): Promise<Graph> {
  const { paths, program } = task;
  await checkProgram(program).catch(({ message }) => {
    throw new ProgramEnd(message);
  });
  const read = await readProject({
    ...task, roots: paths, excluded: true, signal, onRead: () => signal?.throwIfAborted(),
  });
  const { graph, named, entries } = read;
  const keyOf = (file: string | Url) => read.keyOf(pathOf(file, "a file"));
  return {
    ...(entries.length > 0 && { entries }),
    modules: graph.listed,
    cycles: () => graph.cycles(),
    unreached: async () => (entries.length > 0 ? unreachedOf : unledOf)(graph, named, read),
    why: (file) => graph.chains(entries)(keyOf(file)),
    dependents: (file) => graph.dependents(keyOf(file)),
    missing: () => graph.missing(),
  };
}
