/**
 * Which files the names in a text lead to, of which only some parts may be known, among those that are looked
 * for. More files than those that a bundler would take are no error: a match is a reason to look, and no
 * proof.
 */

import { basename, dirname, join, relative, resolve as absolute } from "node:path";

import { compiledPath, isModule, isPage, withoutEnding } from "../files/file_kinds.js";
import { globMatcher, matchesItems } from "../files/globs.js";
import { unlessThrown } from "../runtime/faults.js";
import { PLATFORMS, SERVED } from "./conventions.js";
import { type LooseReference, type Parts, plainGlob } from "./loose_references.js";
import { isPath, isRelative, tailOf } from "./names.js";
import type { Resolver } from "./resolver.js";

/** The files that are looked for, and what finds them by the rules of node. */
export type Among = { candidates: Candidates, resolver: Resolver };
/** Stands for any text between the known parts of a name. */
const ANY = "**";
/** What jest writes for the folder of its configuration. */
const ROOT_DIR = /^<rootDir>\//;

/** The files that a string literal, a call or a tag in the file at a path names. */
export function filesNamed(from: string, { kind, parts, form, isFile }: LooseReference, among: Among): string[] {
  const { candidates, resolver } = among;
  const [name = "", ...others] = parts;
  const folder = dirname(from);
  const own = resolver.manifests.scopeOfFile(from)?.folder;
  const root = own ?? folder;
  const isOfRoot = kind === "new Worker" || (name.startsWith("/") && kind !== "__dirname");
  const served = isOfRoot ? [process.cwd(), ...SERVED.map((each) => join(root, each))] : [];
  const folders = [...new Set([folder, ...served])];
  const literal = name.replace(ROOT_DIR, "./");
  const ofLiteral = literal === name ? [...new Set([folder, root])] : [root];
  const globbed = (glob: string, bases: string[]) => {
    return bases.flatMap((base) => candidates.globbed(plainGlob(glob), base));
  };
  switch (form) {
    case "literal":
      return others.length > 0
        ? candidates.matching([literal, ...others], folder)
        : fileOf(literal.replace(/^\/+/, ""), ofLiteral, among);
    case "literal glob":
      return globbed(literal.includes("/") ? literal : `**/${literal}`, ofLiteral);
    case "glob":
      return isPath(name) || name.startsWith("*") ? globbed(name, folders) : globbed(`**/${tailOf(name)}`, [root]);
    case "folder":
      return folders.flatMap((base) => candidates.below(name, base));
    case "amd":
      return ofAmd(name, folder, among, own ?? process.cwd());
    default:
      return parts.includes(undefined)
        ? folders.flatMap((base) => candidates.matching(atFolder(parts, isFile), base))
        : ofName(parts.join(""), from, folders, among, isFile);
  }
}

function ofName(
  name: string, from: string, folders: string[], { candidates, resolver }: Among, isFile: boolean = false,
): string[] {
  const isOfFile = isPath(name) || name.startsWith(".") || isFile;
  const path = isOfFile ? undefined : resolver.fileOf(name, from);
  // The `src` of a page is a URL: without a slash it leads to a file beside the page.
  const named = path === undefined && (isOfFile || isPage(from)) ? folders : [];
  return [path ?? [], named.flatMap((folder) => candidates.named(name.replace(/^\/+/, ""), folder))].flat();
}

/** What a name leads to from the first of some folders from which it leads to a file. */
function fileOf(name: string, folders: string[], { candidates, resolver }: Among): string[] {
  const found = folders.map((folder) => candidates.named(name, folder));
  const isAny = found.some((each) => each.length > 0);
  const files = (isAny ? folders : []).map((folder, at) => {
    return resolver.fileOf(isRelative(name) ? name : `./${name}`, join(folder, "package.json")) ?? found[at];
  });
  return [files.find((each) => each.length > 0) ?? []].flat();
}

/** What a name of AMD, perhaps after that of a plugin, leads to from a folder, or one above up to the root. */
function ofAmd(written: string, folder: string, among: Among, root: string): string[] {
  const name = written.slice(written.lastIndexOf("!") + 1);
  const found = among.candidates.named(name, folder);
  const isLast = isRelative(name) || folder === root || folder === dirname(folder);
  return found.length > 0 || isLast ? found : ofAmd(name, dirname(folder), among, root);
}

/** @param isFile whether a name without a dot at its beginning is a path */
function atFolder([first, ...others]: Parts, isFile: boolean = false): Parts {
  const before = first?.startsWith("/") ? "." : isFile && !isRelative(first ?? "") ? "./" : "";
  return [first === undefined ? first : before + first, ...others];
}

export class Candidates {
  private readonly byStem;
  /** By the last name of their path, without an ending, and by that of their folder for an `index`. */
  private readonly byName;

  constructor(private readonly paths: string[]) {
    this.byStem = grouped(paths, (path) => [withoutEnding(path)]);
    this.byName = grouped(paths, (path) => endsOf(path).map((each) => basename(each)));
  }

  /** The files whose paths end as a name does, which has no slash at its beginning. */
  ending(tail: string): string[] {
    const end = `/${withoutEnding(withoutSuffix(tail)).replace(/\/+$/, "")}`;
    const named = this.byName.get(basename(end)) ?? [];
    return named.filter((path) => endsOf(path).some((each) => each.endsWith(end)));
  }

  /** The files of one platform each, by the path of the one for others, with or without an ending. */
  ofPlatforms(path: string): string[] {
    return PLATFORMS.flatMap((platform) => this.byStem.get(withoutEnding(path) + platform) ?? []);
  }

  /** The files that a name may be, from an absolute folder: with another ending or none, or an `index`. */
  named(name: string, folder: string): string[] {
    const path = absolute(folder, withoutSuffix(name));
    const found = [withoutEnding(path), path, join(path, "index")].flatMap((stem) => this.byStem.get(stem) ?? []);
    return found.includes(path) ? [path] : [...new Set(found)];
  }

  /** The files that the known parts of a name match, from an absolute folder; none where too little is known. */
  matching(parts: (string | undefined)[], folder: string): string[] {
    const pattern = patternOf(parts, folder);
    return pattern ? this.paths.filter((path) => spellingsOf(path).some((each) => fits(each, pattern))) : [];
  }

  below(name: string, folder: string): string[] {
    const start = `${absolute(folder, name)}/`.replace(/\/+$/, "/");
    return this.paths.filter((path) => path.startsWith(start));
  }

  /** The files that a glob matches; none where the glob can't be read. */
  globbed(glob: string, folder: string): string[] {
    const [ups] = /^(?:\.{1,2}\/)*/.exec(glob) ?? [""];
    const base = absolute(folder, ups);
    const matches = unlessThrown(() => globMatcher(`./${glob.slice(ups.length).replace(/^\//, "")}`));
    return this.paths.filter((path) => matches?.(relative(base, path)));
  }
}

function grouped(paths: string[], keysOf: (path: string) => string[]): Map<string, string[]> {
  const found = new Map<string, string[]>();
  for (const [key, path] of paths.flatMap((each) => keysOf(each).map((key) => [key, each]))) {
    const known = found.get(key) ?? [];
    known.push(path);
    found.set(key, known);
  }
  return found;
}

/** @returns the path without its ending, and its folder where it is an `index` */
function endsOf(path: string): string[] {
  const stem = withoutEnding(path);
  return basename(stem) === "index" ? [stem, dirname(stem)] : [stem];
}

const withoutSuffix = (name: string) => name.replace(/[?#].*$/s, "");
const spellingsOf = (path: string) => [path, compiledPath(path) ?? [], endsOf(path)].flat();

/** @returns texts between which anything may be; nothing where too little is known */
function patternOf(parts: (string | undefined)[], folder: string): string[] | undefined {
  const texts = [""];
  for (const part of parts) {
    texts.push(part === undefined ? "" : texts.pop() + part);
  }
  const [first, ...others] = [...texts.slice(0, -1), withoutSuffix(texts[texts.length - 1])];
  if (/^\.{1,2}\//.test(first)) {
    return [join(folder, first), ...others];
  }
  // Of a name that a configuration replaces at its beginning, what follows the first slash is in the path.
  const rest = first.includes("/") ? first.slice(first.indexOf("/")) : "";
  const isKnown = [rest, ...others].some((text) => /[\p{L}\p{N}_$]/u.test(withoutEnding(text)));
  // Of a name with an ending alone a bundler takes the files below the folder.
  const isEnded = first === "" && isModule(`a${others.at(-1)}`);
  const all = [!isKnown && isEnded ? join(folder, "/") : "", rest, ...others];
  const needed = all.filter((each, at) => each !== "" || at === 0 || at === all.length - 1);
  return isKnown || isEnded ? needed : undefined;
}

/** Whether a text has those of a pattern in their order, the first at its beginning and the last at its end. */
function fits(text: string, pattern: string[]): boolean {
  const items = pattern.flatMap((part, at) => [...(at > 0 ? [ANY] : []), ...part]);
  return text.startsWith(pattern[0]) && text.endsWith(pattern[pattern.length - 1]) &&
    matchesItems(items, [...text], ANY, (one, other) => one === other);
}
