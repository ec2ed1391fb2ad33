/** A graph of modules, and what can be asked of it. */

import { fileURLToPath } from "node:url";

import { memoized } from "../files/by_folder.js";
import { pathMatcher } from "../files/exclusions.js";
import { isDeclaration, isPage, isTypeScript } from "../files/file_kinds.js";
import { GlobFault, globMatcher } from "../files/globs.js";
import { cyclesOf, wayTo, ways } from "./cycles.js";
import { isAlias, isPath } from "./names.js";
import { type Counted, counts, edgesOf } from "./references.js";
import type { Cycle, Edge, Ends, GraphModule, Mention, Reference, Step } from "./graph.cjs";

export class ModuleGraph {
  constructor(readonly counted: Counted, private readonly byKey: Map<string, GraphModule>) {}

  get modules(): GraphModule[] {
    return [...this.byKey.values()];
  }

  /** Without those that are excluded. */
  get listed(): GraphModule[] {
    return this.modules.filter(({ isExcluded }) => !isExcluded);
  }

  readonly module = (key: string): GraphModule | undefined => this.byKey.get(key);

  withTypes(): ModuleGraph {
    return new ModuleGraph({ ...this.counted, types: true }, this.byKey);
  }

  readonly edgesFrom = memoized((key: string): Edge[] => {
    return edgesOf(key, this.module(key)?.references ?? []).filter((each) => counts(each, this.counted));
  });

  /** The modules that are in use where one is: those that it leads to, and the one that it was compiled from. */
  private leadsFrom(key: string): string[] {
    return [...this.edgesFrom(key).map(({ to }) => to), this.module(key)?.source ?? []].flat();
  }

  reached(entries: string[]): Set<string> {
    const isModule = (key: string) => this.byKey.has(key);
    return new Set(ways(entries.filter(isModule), (key) => this.leadsFrom(key).filter(isModule)).keys());
  }

  /** Returns what finds a shortest chain of imports from one of the entries to a file, which may be empty. */
  chains(entries: string[]): (target: string) => Step[] {
    const before = ways(entries, (key) => this.leadsFrom(key));
    return (target) => (before.has(target) ? wayTo(target, before) : []).map((module, at, way) => {
      const from = way[at - 1];
      const edge = at === 0 ? undefined : this.edgesFrom(from).find(({ to }) => to === module);
      return { module, ...(edge ? { by: this.mentionOf(edge) } : at > 0 && { builtAs: from }) };
    });
  }

  dependents(target: string): string[] {
    const keys = this.listed.map(({ specifier }) => specifier);
    return keys.filter((key) => this.edgesFrom(key).some(({ to }) => to === target));
  }

  readonly missing = (): Mention[] => this.mentions(isMissing);

  /** The references in JavaScript that other rules than node's find. */
  foundByOthers(): Mention[] {
    return this.mentions(({ resolved }, module) => {
      const { by = "node" } = resolved as Ends;
      return by !== "node" && !isTypeScript(module);
    });
  }

  /** The references that count, of some modules: of those that are listed, where none are given. */
  mentions(isMeant: (reference: Reference, module: string) => boolean, modules: GraphModule[] = this.listed) {
    return modules.flatMap(({ specifier: module, references }) => {
      return references.filter((each) => counts(each, this.counted) && isMeant(each, module))
        .map((reference) => ({ module, reference }));
    });
  }

  /**
   * What keeps the reached modules from being known as a whole: the counts of references to a path that isn't
   * found, of those by a bundler's alias, and of modules that can't be read or parsed.
   */
  gaps(reached: Set<string>) {
    const modules = this.modules.filter(({ specifier }) => reached.has(specifier));
    return {
      missing: this.mentions((reference, module) => {
        return isMissing(reference) && (isPath(reference.specifier ?? "") || isPage(module));
      }, modules).length,
      aliases: this.mentions(isOfAlias, modules).length,
      faults: modules.filter(({ fault }) => fault).length,
    };
  }

  /** The cycles of the modules that are listed; the second need edges of types. */
  cycles(): { cycles: Cycle[], typeCycles: Cycle[] } {
    const keys = this.listed.map(({ specifier }) => specifier);
    const indexes = new Map(keys.map((key, index) => [key, index]));
    const edges = keys.flatMap((key, from) => this.edgesFrom(key).flatMap(({ to: target, kind }) => {
      const to = indexes.get(target);
      return to === undefined ? [] : [{ from, to, kind }];
    }));
    const all: { cycles: Cycle[], typeCycles: Cycle[] } = { cycles: [], typeCycles: [] };
    for (const { isRun, ...found } of cyclesOf(keys.length, edges)) {
      const [modules, path] = [found.modules, found.path].map((each) => each.map((index) => keys[index]));
      const isOfTypes = isRun && this.isPerhapsOfTypes(modules);
      all[isRun ? "cycles" : "typeCycles"].push({ modules, path, ...(isOfTypes && { perhapsOfTypes: true }) });
    }
    return all;
  }

  /**
   * Whether a cycle of what runs may be none: a compiler removes an import of TypeScript whose names are all
   * types, which a `ModuleInfo` doesn't have.
   */
  private isPerhapsOfTypes(modules: string[]): boolean {
    const inside = new Set<string | undefined>(modules);
    const isRemovable = ({ kind, sideEffect, resolved }: Reference) => {
      return kind === "static" && !sideEffect && inside.has((resolved as Ends).file);
    };
    return modules.some((key) => isTypeScript(key) && !isDeclaration(key) &&
      this.module(key)?.references.some(isRemovable));
  }

  edges(): Edge[] {
    return [...this.byKey.keys()].flatMap((key) => this.edgesFrom(key)).filter(({ to }) => this.byKey.has(to));
  }

  mentionOf({ from, to }: Edge): Mention {
    const found = this.module(from)?.references.find((each) => {
      const { file, types } = each.resolved as Ends;
      return counts(each, this.counted) && (file === to || types === to);
    });
    return { module: from, reference: found as Reference };
  }
}

function isOfAlias(reference: Reference): boolean {
  return (isMissing(reference) || reference.resolved.class === "url") && isAlias(reference.specifier ?? "");
}

function isMissing({ resolved }: Reference): boolean {
  const { class: name, file, types } = resolved as Ends;
  return name === "missing" || (name === "package" && (file ?? types) === undefined);
}

/** `to` is a file's URL, or a package's name; `way` a shortest one from an entry to it, or from the module. */
type Forbidden = { rule: string, mention: Mention, to: string, way: string[] };

/** Rules are "FROM:TO", of which both are globs, the second one perhaps of packages' names. @throws {GlobFault} */
export function forbiddenEdges(graph: ModuleGraph, entries: string[], rules: string[]): Forbidden[] {
  const chainTo = graph.chains(entries);
  return rules.flatMap((rule) => {
    const { isFrom, targetOf } = readRule(rule);
    const found = graph.mentions((each, module) => isFrom(module) && targetOf(each) !== undefined);
    return found.map((mention) => {
      const to = targetOf(mention.reference) as string;
      const before = chainTo(mention.module).map(({ module }) => module);
      return { rule, mention, to, way: [...(before.length > 0 ? before : [mention.module]), to] };
    });
  });
}

function readRule(rule: string) {
  const [from, ...rest] = rule.split(":");
  const to = rest.join(":").replace(/^node:/, "");
  if (from === "" || to === "") {
    throw new GlobFault(`${rule}: a rule is FROM:TO, two globs`);
  }
  const [isFrom, isTo] = [from, to].map((glob) => {
    const matches = pathMatcher([glob]);
    return (url: string) => matches(fileURLToPath(url));
  });
  const isName = globMatcher(to);
  const targetOf = ({ specifier = "", resolved }: Reference): string | undefined => {
    const { class: kind, file, types, package: installed } = resolved as Ends;
    const name = kind === "builtin" ? specifier.replace(/^node:/, "") : installed;
    return name !== undefined && isName(name) ? name : [file, types].find((url) => url !== undefined && isTo(url));
  };
  return { isFrom, targetOf };
}
