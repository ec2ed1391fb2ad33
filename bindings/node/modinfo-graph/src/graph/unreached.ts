/**
 * The modules that no entry reaches by what runs: unreached ones; those that may be reached, by what isn't
 * known as a whole, or is in a text alone; and those that types alone reach.
 */

import { dirname, extname, relative, resolve as absolute } from "node:path";
import { fileURLToPath, pathToFileURL } from "node:url";

import { memoized } from "../files/by_folder.js";
import { describedBeside, isComponent, isDeclaration, isInstalled, isPage } from "../files/file_kinds.js";
import { globMatcher } from "../files/globs.js";
import { readRegularFile } from "../files/regular_files.js";
import { urlOfPath } from "../files/urls.js";
import { unlessThrown } from "../runtime/faults.js";
import { LOADED } from "./conventions.js";
import { type Parts, commentsOf, literalOf, literalsOf, looseCalls, looseImports } from "./loose_references.js";
import { type Among, Candidates, filesNamed } from "./named_paths.js";
import { isAlias, isRelative, tailOf } from "./names.js";
import { LISTS, type Manifest, packagesIn } from "./package_manifests.js";
import { isRunKind } from "./references.js";
import { isReport, positionsIn, searchedText } from "./scripts.js";
import type { Perhaps } from "./entry_points.js";
import type { Ends, GraphModule, Mention, Reason, Reference, Unreached } from "./graph.cjs";
import type { ModuleGraph } from "./module_graph.js";
import type { Resolver } from "./resolver.js";

/** @param listed the keys of the modules that are asked about, in whose order the lists are */
export function unreachedOf(graph: ModuleGraph, listed: string[], project: Project): Unreached {
  const { entries } = project;
  const reached = graph.reached(entries);
  const references = graph.counted.types ? [...reached].flatMap((key) => graph.module(key)?.references ?? []) : [];
  const assets = new Set(references.flatMap(({ resolved }) => (resolved.class === "asset" ? resolved.file : [])));
  const isReached = (key: string) => {
    return [key, ...describedBeside(key)].some((each) => reached.has(each) || assets.has(each));
  };
  const asked = [...new Set(listed)].filter((key) => {
    return (graph.counted.types || !isDeclaration(key)) && !isReached(key) && graph.module(key);
  });
  const reasons = asked.length > 0 ? reasonsOf(graph, reached, project, [...reached]) : new Map<string, Reason>();
  return classed(asked, reasons, typeMentions(graph, [...entries, ...reasons.keys()]));
}

/** The modules that no other one leads to, without an entry: types and comments are among what leads. */
export function unledOf(graph: ModuleGraph, listed: string[], project: Project): Unreached {
  const all = graph.withTypes();
  const keys = graph.modules.map(({ specifier }) => specifier);
  const led = new Set(keys.flatMap((key) => all.edgesFrom(key).map(({ to }) => to).filter((to) => to !== key)));
  const reasons = reasonsOf(graph, led, project, keys);
  return classed(listed.filter((key) => !led.has(key)), reasons, () => undefined);
}

function classed(asked: string[], reasons: Map<string, Reason>, byTypes: Mentions): Unreached {
  const found: Unreached = { unreached: [], mayBeReached: [], byTypes: [] };
  for (const module of asked) {
    const [reason, by] = [reasons.get(module), byTypes(module)];
    if (reason) {
      found.mayBeReached.push({ module, reason });
    } else if (by) {
      found.byTypes.push({ module, by });
    } else {
      found.unreached.push(module);
    }
  }
  return found;
}

type Mentions = (key: string) => Mention | undefined;

/** What leads first to each module that is reached from some keys where types count too. */
function typeMentions(graph: ModuleGraph, starts: string[]): Mentions {
  const all = graph.withTypes();
  const keys = all.reached(starts);
  const edges = [...keys].flatMap((key) => all.edgesFrom(key)).filter(({ to }) => keys.has(to));
  // The first one of several is kept.
  const byTarget = new Map(edges.reverse().map((edge) => [edge.to, edge]));
  return (key) => [byTarget.get(key) ?? []].flat().map((edge) => all.mentionOf(edge))[0];
}

/**
 * The keys of entries, what package.json names for other conditions, the paths of what isn't parsed, and whether a
 * file isn't read as a module.
 */
export type Project = Record<"entries" | "pages", string[]>
  & { perhaps: Perhaps[], isIgnored: (path: string) => boolean, resolver: Resolver };

/** Where and for what is searched; `isOpen` returns whether a module is neither reached nor found */
type Search = Among & { graph: ModuleGraph, isOpen: (key: string) => boolean };
type Hint = Reason & { keys: string[] };

/** Why each module may be reached, by their keys; `starts` are keys of modules that are taken for reached. */
export function reasonsOf(
  graph: ModuleGraph, reached: Set<string>, { pages, perhaps, isIgnored, resolver }: Project, starts: string[],
): Map<string, Reason> {
  const reasons = new Map<string, Reason>();
  const isOpen = (key: string) => !reached.has(key) && !reasons.has(key) && graph.module(key) !== undefined;
  const keys = graph.modules.map(({ specifier }) => specifier);
  const candidates = new Candidates(keys.filter(isOpen).map((key) => fileURLToPath(key)));
  const search = { graph, resolver, candidates, isOpen };
  const excluded = keys.filter((key) => graph.module(key)?.isExcluded);
  const todo = new Set([...starts, ...pages.map((path) => pathToFileURL(path).href), ...excluded]);
  const take = (hints: Iterable<Hint>) => {
    for (const { keys: found, ...reason } of hints) {
      for (const key of found.filter(isOpen)) {
        reasons.set(key, reason);
        todo.add(key);
      }
    }
  };
  take(ofConventions(keys, search));
  take(perhaps.map((each) => ofManifest(each, search)));
  // What is added meanwhile follows.
  for (const key of todo) {
    const module = graph.module(key);
    take(module && !reached.has(key) ? ofEdges(module, search) : []);
    for (const reference of module?.references.filter(({ kind }) => isRunKind(kind)) ?? []) {
      const { file } = reference.resolved as Ends;
      if (file && !graph.module(file) && isIgnored(fileURLToPath(file))) {
        todo.add(file);
      }
      take(ofReference(key, reference, search));
    }
    take([ofSources(key, search)]);
    take(ofText(key, search));
  }
  return reasons;
}

function* ofConventions(keys: string[], { resolver, isOpen }: Search): Generator<Hint, void> {
  const loadersIn = memoized((manifest: Manifest) => packagesIn(manifest, LISTS).map((name) => {
    return { name, globs: (LOADED.get(name) ?? []).map(globMatcher) };
  }));
  for (const key of keys.filter(isOpen)) {
    const path = fileURLToPath(key);
    const manifest = resolver.manifests.scopeOfFile(path);
    const from = relative(manifest?.folder ?? "", path);
    const loader = manifest && loadersIn(manifest).find(({ globs }) => globs.some((matches) => matches(from)));
    if (loader) {
      yield { keys: [key], kind: "convention", module: urlOfPath(manifest.path), text: loader.name };
    }
  }
}

function ofManifest({ kind, path, from, text }: Perhaps, search: Search): Hint {
  const paths = path ?? [literalOf(text)].flat().flatMap((each) => filesNamed(from, each, search));
  return { keys: [paths].flat().map(urlOfPath), kind, module: urlOfPath(from), text };
}

/** What a module names that isn't reached itself. */
function* ofEdges({ specifier: key, isExcluded }: GraphModule, { graph }: Search): Generator<Hint, void> {
  const kind = isExcluded ? "excluded" : isPage(fileURLToPath(key)) ? "script" : "import";
  for (const edge of graph.edgesFrom(key).filter(({ to }) => to !== key)) {
    const { reference: { range: [position], specifier } } = graph.mentionOf(edge);
    yield { keys: [edge.to], kind, module: key, position, text: specifier };
  }
}

/** What is built of other files: those are in use that have the same path below `src`. */
function ofSources(key: string, { graph, resolver, candidates }: Search): Hint {
  const { source } = graph.module(key) ?? {};
  const path = fileURLToPath(key);
  const likely = source === undefined && !isInstalled(path) ? resolver.search.likelySources(path) : [];
  const paths = likely.flatMap((each) => candidates.named(each, "/"));
  return { keys: [source ?? [], paths.map(urlOfPath)].flat(), kind: "output", module: key };
}

/** The known parts of an argument; other conditions and platforms; a bundler's alias. */
function* ofReference(
  key: string, { specifier, argument, range: [position], resolved }: Reference, { resolver, candidates }: Search,
): Generator<Hint, void> {
  const path = fileURLToPath(key);
  const { file } = resolved as Ends;
  const target = file ? [fileURLToPath(file)] : [];
  const hint = (kind: Reason["kind"], paths: string[], text = specifier) => {
    return { keys: paths.map(urlOfPath), kind, module: key, position, text };
  };
  if (argument) {
    const parts = argument.map((part) => (part.type === "string" ? part.value : undefined));
    yield hint("template", candidates.matching(parts, dirname(path)), shown(parts));
  }
  if (specifier === undefined) {
    return;
  }
  yield hint("condition", resolver.others(specifier, path, target[0]));
  if (isRelative(specifier)) {
    const named = [absolute(dirname(path), specifier), ...target];
    yield hint("condition", named.flatMap((each) => candidates.ofPlatforms(each)));
  } else if (!file && isAlias(specifier)) {
    yield hint("alias", candidates.ending(tailOf(specifier)));
  }
}

/** The calls and string literals of a text; and its imports, where it wasn't parsed. */
function* ofText(key: string, search: Search): Generator<Hint, void> {
  const path = fileURLToPath(key);
  const { references = [], fault } = search.graph.module(key) ?? {};
  const isParsed = search.graph.module(key) !== undefined && !fault;
  const isScript = isPage(path) || isComponent(path) || extname(path) === "";
  const kind = fault ? "fault" : isScript ? "script" : "ignored";
  const whole = unlessThrown(() => String(readRegularFile(path))) ?? "";
  // The scripts of an earlier report are no part of the project.
  const text = isReport(whole) ? "" : searchedText(whole, path);
  const positionOf = positionsIn(text);
  let isOther: ReturnType<typeof otherLiterals> | undefined;
  for (const loose of [...(isParsed ? looseCalls(text) : looseImports(text, kind)), ...literalsOf(text)]) {
    const open = filesNamed(path, loose, search).map(urlOfPath).filter(search.isOpen);
    if (open.length > 0) {
      const position = positionOf(loose.offset);
      isOther ??= otherLiterals(text, references);
      const isMeant = !loose.form.startsWith("literal") || isOther(loose.offset, position);
      yield { keys: isMeant ? open : [], kind: loose.kind, module: key, position, text: shown(loose.parts) };
    }
  }
}

/** Whether a literal is in no comment of a text, and isn't the name of a reference. */
function otherLiterals(text: string, references: Reference[]) {
  const known = new Set(references.map((each) => each.specifier !== undefined && String(each.range[0])));
  const isInComment = commentsOf(text);
  return (offset: number, position: number[]) => !known.has(String(position)) && !isInComment(offset);
}

const shown = (parts: Parts) => parts.map((each) => each ?? "${..}").join("");
