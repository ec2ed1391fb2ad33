/** Reads what paths name, and what entries lead to, into a graph: for the commands and for the service. */

import { resolve as absolute } from "node:path";
import { fileURLToPath } from "node:url";

import { exclusionsOf } from "../files/exclusions.js";
import { isComponent, isDeclaration, isInstalled, isModule, isPage } from "../files/file_kinds.js";
import { type Found, findFiles } from "../files/find_files.js";
import { type FileResult, type ReadOptions, readFiles } from "../files/read_files.js";
import { type KeyOf, canonicalUrls } from "../files/urls.js";
import { entryPoints } from "./entry_points.js";
import { ModuleGraph } from "./module_graph.js";
import { type Counted, counts, referencesOf } from "./references.js";
import { Resolver, type ResolverOptions } from "./resolver.js";
import { readComponent, textReader } from "./scripts.js";
import type { ModuleInfo } from "modinfo";
import type { GraphOptions } from "../options.cjs";
import type { Ends, GraphModule, ResolveHook } from "./graph.cjs";
import type { Project } from "./unreached.js";

/** `info` has `resolved` in all that names a module; a file with a fault may have neither it nor `module`. */
export type ReadFile = Pick<FileResult, "path" | "isLeft" | "fault">
  & { info?: ModuleInfo, module?: GraphModule, notices?: string[] };

type OfOptions = Pick<GraphOptions, "exclude" | "ignore" | "gitignore" | "all" | "resolve">;

/** Options of the package, and others: whether links below no root are followed, and excluded files read. */
interface ProjectTask extends ReadOptions, Counted, OfOptions, Partial<Record<"links" | "excluded", boolean>> {
  paths: AsyncIterable<string> | Iterable<string>;
  /** Those of the paths that are known before, below which links may lead */
  roots: string[];
  entries: string[];
  resolver: ResolverOptions;
  /** Hands the files on, and may look them up ahead */
  ahead?: (files: AsyncIterable<Found>) => AsyncIterable<Found>;
  /** Is called for each file in turn */
  onRead?: (result: ReadFile, isExcluded: boolean) => void;
}

/** A task, with what its files are read by: whether a module isn't listed, and whether a file isn't followed. */
type Reading = Omit<ProjectTask, "resolver"> & Pick<Project, "isIgnored" | "resolver"> & {
  keyOf: KeyOf,
  isExcluded: (path: string) => boolean,
};

export type ProjectGraph = Awaited<ReturnType<typeof readProject>>;

/**
 * @returns rejected with an `EntryFault`, a `GlobFault` or a `GitFault`; `named` has the keys of the files of
 *   the paths, `absent` what names an entry that isn't there
 */
export async function readProject(task: ProjectTask) {
  const { paths, roots, all, links: follow, excluded, resolver: options } = task;
  const { isExcluded, isIgnored, isKept, isLeftOut } = await exclusionsOf(task, [...roots, ...task.entries]);
  const resolver = new Resolver(options);
  const { files, absent, texts, perhaps } = await entryPoints(task.entries, options.conditions ?? [], resolver);
  const search = { all, follow, roots, isExcluded: isLeftOut, components: true, ...(excluded && { isKept }) };
  const keyOf = canonicalUrls();
  const named: string[] = [];
  const pages: string[] = [];
  async function* allFiles() {
    for await (const file of findFiles(paths, search)) {
      if (isPage(file.path)) {
        pages.push(absolute(file.path));
      } else if (!file.error && !file.isLeft && !file.isExcluded) {
        named.push(keyOf(file.path, file.real));
      }
      yield file;
    }
    yield* findFiles(files, {});
  }
  const reading = { ...task, resolver, keyOf, isExcluded, isIgnored };
  const graph = await readGraph(allFiles(), reading, files.length > 0);
  pages.push(...texts.map((path) => absolute(path)));
  const entries = files.map((path) => keyOf(path));
  return { entries, perhaps, pages, isIgnored, resolver, graph, named, absent, keyOf };
}

/** @param follow whether files are read that the named ones lead to */
async function readGraph(named: AsyncIterable<Found>, reading: Reading, follow: boolean): Promise<ModuleGraph> {
  const { types, dynamic, resolve, keyOf, ahead = (files) => files } = reading;
  const modules = new Map<string, GraphModule>();
  const { files, pass } = walk(named, keyOf);
  const seen = new Set<string>();
  const infoOf = textReader(reading.program);
  const readOther = (path: string) => {
    return isComponent(path) || isPage(path) ? readComponent(path, infoOf) : undefined;
  };
  for await (const file of readFiles(ahead(files), { ...reading, readOther })) {
    const module = moduleOf(file, reading);
    if (module) {
      await (resolve && resolveBy(resolve, module, keyOf));
      modules.set(module.specifier, module);
    }
    pass(module && follow ? pathsToFollow(module, reading, seen) : []);
  }
  return new ModuleGraph({ types, dynamic }, modules);
}

/**
 * Each file once, by the first path that leads to it: those that are named, then those that these lead to.
 * @returns for each of the files `pass` has to be called with the paths of those that it leads to, in the
 *   order of the files: then the order of those that are found is always the same
 */
function walk(named: AsyncIterable<Found>, keyOf: KeyOf) {
  const paths: string[] = [];
  const passed = new Set<string>();
  let underWay = 0;
  let wake = () => {};
  /** Counts a file that is under way from now on, if it is the first one. */
  const isFirst = (file: Found) => {
    // A link that isn't followed is reported, and its file may have another path.
    const key = file.isLeft ? undefined : keyOf(file.path, file.real);
    const isNew = key === undefined || !passed.has(key);
    underWay += Number(isNew);
    passed.add(key ?? "");
    return isNew;
  };
  async function* files(): AsyncGenerator<Found, void> {
    for await (const file of named) {
      if (isFirst(file)) {
        yield file;
      }
    }
    for (let at = 0; at < paths.length || underWay > 0;) {
      if (at === paths.length) {
        await new Promise<void>((resolve) => (wake = resolve));
      } else if (isFirst({ path: paths[at++] })) {
        yield { path: paths[at - 1] };
      }
    }
  }
  const pass = (found: string[]) => {
    underWay--;
    found.forEach((path) => paths.push(path));
    wake();
  };
  return { files: files(), pass };
}

/** @returns nothing for a link that isn't followed, and for a page without scripts */
function moduleOf(
  { path, real, info, value, isLeft, fault }: FileResult, { resolver, keyOf, isExcluded, onRead }: Reading,
): GraphModule | undefined {
  if (!info && !value && !isLeft && !fault) {
    return undefined;
  }
  const json: ModuleInfo | undefined = value ?? (info && JSON.parse(String(info)));
  const file = path === real ? path : absolute(path);
  const specifier = keyOf(file, real);
  const named = json ? resolver.resolveInfo(json, file, real) : [];
  const references = referencesOf(named, { isDeclaration: isDeclaration(file) });
  const canonical = real ?? fileURLToPath(specifier);
  const source = json && !isInstalled(canonical) ? resolver.search.sourceOf(canonical) : undefined;
  const module = { specifier, references, ...(source !== undefined && { source: keyOf(source) }) };
  const known = json && { info: json, module, notices: resolver.takeNotices() };
  const isOut = isExcluded(path);
  onRead?.({ path, isLeft, fault, ...known }, isOut);
  return isLeft ? undefined : { ...module, ...(fault && { fault }), ...(isOut && { isExcluded: true as const }) };
}

/** Replaces what the names of a module lead to by what a hook returns: a path, or the URL of a file. */
async function resolveBy(resolve: ResolveHook, { specifier: from, references }: GraphModule, keyOf: KeyOf) {
  for (const reference of references) {
    const { specifier, kind } = reference;
    const found = specifier === undefined ? undefined : await resolve(specifier, from, { kind });
    if (found !== undefined) {
      const text = typeof found === "string" ? found : found?.href;
      const file = text && keyOf(text.startsWith("file:") ? fileURLToPath(text) : text);
      reference.resolved = file ? { class: "file", file } : { class: "missing" };
    }
  }
}

/** @param seen the URLs that were followed, to which others are added */
function pathsToFollow({ references, source }: GraphModule, task: Reading, seen: Set<string>): string[] {
  const urls = references.filter((each) => counts(each, task)).flatMap(({ resolved: found }) => {
    const { class: kind, file, types } = found as Ends;
    const isFollowed = kind === "file" || (task.all && kind === "package");
    return isFollowed ? [file, task.types ? types : undefined] : [];
  });
  const others = [...urls, source].flatMap((url) => (url === undefined || seen.has(url) ? [] : url));
  others.forEach((url) => seen.add(url));
  return others.map((url) => fileURLToPath(url))
    .filter((path) => (isModule(path) || isComponent(path)) && !task.isIgnored(path));
}
