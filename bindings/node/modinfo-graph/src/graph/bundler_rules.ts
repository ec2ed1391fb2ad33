/**
 * What compilers and bundlers find where node finds nothing: a file by its name without the ending, the index
 * of a folder, a TypeScript file by its JavaScript's name, a name with a query, and other main modules of a
 * package.
 */

import { join, resolve as absolute } from "node:path";

import { memoized } from "../files/by_folder.js";
import { isDeclaration } from "../files/file_kinds.js";
import { MAIN_FIELDS, PLATFORMS, REPLACING } from "./conventions.js";
import { isPath, pathOf } from "./names.js";
import { type Found, fileAt, firstOf } from "./node_rules.js";
import { isObject } from "./package_targets.js";
import type { RegularFiles } from "../files/regular_files.js";
import type { Manifest, PackageManifests } from "./package_manifests.js";

const SCRIPT_ENDINGS = [".js", ".jsx", ".mjs"];
const TYPESCRIPT_ENDINGS = [".ts", ".tsx", ".mts"];
const OTHER_ENDINGS = [".json", ".vue", ".svelte", ".css", ".d.ts"];

const COMPILED: Record<string, string[]> = {
  ".js": [".ts", ".tsx", ".d.ts"], ".jsx": [".tsx", ".ts", ".d.ts"], ".mjs": [".mts", ".d.mts"],
  ".cjs": [".cts", ".d.cts"],
};

const SCRIPT = /\.[cm]?jsx?$/;
const QUERY = /(?!^)[?#].*$/s;
/** What webpack's names have before the module: the loaders for it. */
const LOADERS = /^.*!/s;

/** Whether TypeScript's files come first, and what names may have before their endings */
export interface Source {
  isTypeScript: boolean;
  suffixes?: string[];
}

export class BundlerRules {
  /** @param mainFields members of a package.json that name its main module before others */
  constructor(
    private readonly files: RegularFiles, private readonly manifests: PackageManifests,
    private readonly mainFields: string[],
  ) {}

  /** The module of a path that is absolute and normal, with a slash at its end if it can't be a file's. */
  atPath(path: string, source: Source): Found {
    const wanted = absolute(path);
    const names = path.endsWith("/") ? [] : namesOf(path, source);
    return this.firstFile(names) ?? this.asFolder(wanted, source) ?? { kind: "none", wanted };
  }

  /** The first file of a path that has one for each platform, as React Native finds it. */
  ofPlatform(path: string, { isTypeScript }: Source): Found | undefined {
    return this.firstFile(namesOf(path, { isTypeScript, suffixes: PLATFORMS }));
  }

  /** A module of a package in a folder, which has no `exports` for it; `rest` follows the package's name. */
  inPackage(folder: string, rest: string, source: Source): Found {
    return rest === ""
      ? this.asFolder(folder, source) ?? { kind: "none" }
      : this.atPath(pathOf(`.${rest}`, folder), source);
  }

  /** What `browser` of a manifest has for an absolute path or a package's name; false for nothing. */
  replacement(manifest: Manifest | undefined, key: string): string | false | undefined {
    return this.replaced(manifest)[0].get(key);
  }

  /** Like `replacement`, by all members like `browser`; absolute paths alone. */
  replacements(manifest: Manifest | undefined, key: string): string[] {
    const found = this.replaced(manifest).flatMap((each) => each.get(key) || []);
    return found.filter((target) => target.startsWith("/"));
  }

  private readonly replaced = memoized((manifest: Manifest | undefined) => {
    return REPLACING.map((member) => (manifest ? replacementsOf(manifest, member) : new Map<string, string>()));
  });

  private firstFile(paths: string[]): Found | undefined {
    return firstOf(paths, (path) => fileAt(path, this.files));
  }

  private asFolder(folder: string, source: Source): Found | undefined {
    const entry = this.files.at(folder);
    if (entry.kind !== "folder") {
      return undefined;
    }
    const { members = {} } = this.files.isOutside(entry) ? {} : this.manifests.of(folder) ?? {};
    const mains = [...this.mainFields, ...MAIN_FIELDS].map((name) => members[name])
      .flatMap((main) => (typeof main === "string" ? absolute(folder, main) : []));
    const paths = [...mains, join(folder, "index")];
    const all = paths.flatMap((each) => [each, join(each, "index")]);
    return this.firstFile(all.flatMap((each) => namesOf(each, source)));
  }
}

function namesOf(path: string, { isTypeScript, suffixes = [""] }: Source): string[] {
  const ending = SCRIPT.exec(path)?.[0] ?? "";
  const base = path.slice(0, path.length - ending.length);
  const endings = isTypeScript ? [TYPESCRIPT_ENDINGS, SCRIPT_ENDINGS] : [SCRIPT_ENDINGS, TYPESCRIPT_ENDINGS];
  const withEach = (beginning: string, all: string[]) => {
    return suffixes.flatMap((suffix) => all.map((each) => beginning + suffix + each));
  };
  const sources = withEach(base, COMPILED[ending] ?? []);
  const longer = withEach(path, [...endings.flat(), ...OTHER_ENDINGS]);
  return isTypeScript
    ? [...sources.filter((each) => !isDeclaration(each)), path, ...sources, ...longer]
    : [path, ...longer, ...sources];
}

/** A name without what only bundlers read: webpack's loaders before it, and then a query after it. */
export function plainNames(specifier: string): string[] {
  const name = specifier.replace(LOADERS, "");
  return [...new Set([name, name.replace(QUERY, "")])].filter((each) => each !== "");
}

/** What a member of a manifest like `browser` has, by names and by absolute paths. */
function replacementsOf({ folder, members }: Manifest, member: string): Map<string, string | false> {
  const found = new Map<string, string | false>();
  const others = members[member];
  for (const [name, target] of Object.entries(isObject(others) ? others : {})) {
    if (target === false || typeof target === "string") {
      const value = target && isPath(target) ? absolute(folder, target) : target;
      const endings = ["", ...SCRIPT_ENDINGS, "/index.js"];
      const keys = isPath(name) ? endings.map((ending) => absolute(folder, name) + ending) : [name];
      keys.filter((key) => !found.has(key)).forEach((key) => found.set(key, value));
    }
  }
  return found;
}
