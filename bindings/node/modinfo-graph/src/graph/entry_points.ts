/** The modules with which a program begins, by what names them: a module, a page or a package. */

import { dirname, extname, join, relative, resolve as absolute } from "node:path";

import { MODULE_ENDINGS, isComponent, isDeclaration, isModule } from "../files/file_kinds.js";
import { findFiles, isFile, isFolder } from "../files/find_files.js";
import { readRegularFile } from "../files/regular_files.js";
import { pathOfUrl, urlOfFolder } from "../files/urls.js";
import { unlessThrown } from "../runtime/faults.js";
import { NODE_CONDITIONS, NO_TEXTS, OF_ENTRIES, OF_TOOLS, READERS, REPLACING } from "./conventions.js";
import { looseImports } from "./loose_references.js";
import { isPath, isRelative } from "./names.js";
import { allTargets, bySubpath, exportsTarget, isObject, textsIn } from "./package_targets.js";
import type { Resolver } from "./resolver.js";

/** A path that names no entry. The message is for people. */
export class EntryFault extends Error {}

/** Paths of modules, what isn't there, and scripts without an ending, which aren't parsed. */
type EntryPoints = Record<"files" | "absent" | "texts", string[]> & { perhaps: Perhaps[] };
/** What the package.json at `from` may lead to: the file at a path; without a path, what the text names. */
export type Perhaps = { kind: "condition" | "text", path?: string, from: string, text: string };
const TEXTLESS = new Set([...OF_ENTRIES, ...OF_TOOLS, ...NO_TEXTS]);
const WORD = /[^\s"'`=()<>]+/g;
const BEFORE = /^\s*(?:(?:\w+=\S*|cross-env|env|exec|npx|yarn|pnpm|bunx|time)\s+)*/;

/** The entries of modules, pages, and folders with a package.json, each once. @throws {EntryFault} */
export async function entryPoints(paths: string[], conditions: readonly string[], resolver: Resolver) {
  const all: EntryPoints[] = [];
  for (const path of paths) {
    const found = { files: [path], absent: [], texts: [], perhaps: [] };
    all.push(isFolder(path) ? await ofPackage(path, conditions, resolver) : found);
  }
  const [files, absent, texts] = (["files", "absent", "texts"] as const)
    .map((member) => [...new Set(all.flatMap((each) => each[member]))]);
  return { files, absent, texts, perhaps: all.flatMap((each) => each.perhaps) };
}

async function ofPackage(folder: string, conditions: readonly string[], resolver: Resolver): Promise<EntryPoints> {
  const manifest = join(folder, "package.json");
  const from = absolute(manifest);
  const values = readManifest(manifest);
  const own = (member: string) => (Object.hasOwn(values, member) ? values[member] : undefined);
  const { perhaps: others, ...exported } = await exportedFiles(own("exports"), folder, conditions);
  const [named, ofTools] = [OF_ENTRIES, OF_TOOLS].map((all) => all.flatMap((each) => namesIn(own(each), each)));
  const names = named.length + exported.files.length + exported.absent.length > 0 ? named : ["./index"];
  const scripts = own("scripts");
  const words = Object.values(isObject(scripts) ? scripts : {}).flatMap(wordsOf);
  const found: EntryPoints = { ...exported, texts: [], perhaps: [] };
  follow({ from: manifest, names }, found, resolver, false);
  follow({ from: manifest, names: [...ofTools, ...words] }, found, resolver, true);
  if (found.files.length === 0) {
    const what = found.absent.length > 0 ? `files not found: ${found.absent.join(", ")}` : "it names no module";
    throw new EntryFault(`${manifest}: ${what}`);
  }
  const forTools = Object.fromEntries(Object.entries(values).filter(([member]) => !TEXTLESS.has(member)));
  const texts = textsIn(forTools).filter((text) => /[/*]/.test(text));
  const perhaps: Perhaps[] = [
    ...others.map((each) => ({ ...each, kind: "condition" as const, path: absolute(each.path), from })),
    ...texts.map((text) => ({ kind: "text" as const, from, text })),
  ];
  return { ...found, absent: found.absent.map((name) => `${manifest}: ${name}`), perhaps };
}

/** Adds the files that names lead to, and those that scripts without an ending among them import. */
function follow(
  start: { from: string, names: string[] }, found: EntryPoints, resolver: Resolver, isOptional: boolean,
) {
  const todo = [start];
  // What is added meanwhile follows.
  for (const { from, names } of todo) {
    for (const name of names) {
      const path = fileAt(join(dirname(from), name)) ?? resolver.fileOf(name, from);
      if (path === undefined) {
        found.absent.push(...(isOptional ? [] : [name]));
      } else if (isModule(path) || isComponent(path)) {
        found.files.push(path);
      } else if (extname(path) === "" && !found.texts.includes(path)) {
        found.texts.push(path);
        todo.push({ from: path, names: importedBy(path) });
      }
    }
  }
}

function readManifest(path: string): Record<string, unknown> {
  try {
    const values: unknown = JSON.parse(String(readRegularFile(path)));
    return isObject(values) ? values : {};
  } catch (error) {
    const none = "no such file: an entry is a file, or a folder with a package.json";
    const { code, message } = error as NodeJS.ErrnoException;
    throw new EntryFault(`${path}: ${code === "ENOENT" ? none : message}`);
  }
}

/** The modules that a member of a package.json names; what `browser` has in the place of others is no entry. */
function namesIn(value: unknown, member: string): string[] {
  const texts = isObject(value) && REPLACING.includes(member) ? [] : textsIn(value);
  return texts.filter((name) => !isDeclaration(name) && (isModule(name) || !/\.\w+$/.test(name))).map(asPath);
}

function wordsOf(line: unknown): string[] {
  const commands = typeof line === "string" ? line.split(/[;&|]+/) : [];
  const words = commands.map((command) => command.replace(BEFORE, "").match(WORD) ?? [])
    .flatMap(([name = "", ...others]) => (READERS.includes(name) ? [] : [name, ...others]));
  return words.filter((word) => isModule(word) || /^[\w.-]+\/[\w./-]*\w$/.test(word)).map(asPath);
}

const asPath = (name: string) => (isPath(name) ? name : `./${name}`);

/** The relative names that a script imports, as far as they are known as a whole. */
function importedBy(path: string): string[] {
  const text = unlessThrown(() => String(readRegularFile(path))) ?? "";
  return looseImports(text, "script").filter(({ kind, parts }) => kind === "script" && parts.length === 1)
    .map(({ parts }) => String(parts[0])).filter(isRelative);
}

function fileAt(path: string): string | undefined {
  return [path, join(path, "index")].flatMap((each) => ["", ...MODULE_ENDINGS].map((ending) => each + ending))
    .find(isFile);
}

/** The paths of those that node finds, the targets that aren't there, and what other conditions lead to */
type Exported = { files: string[], absent: string[], perhaps: { path: string, text: string }[] };

export async function exportedFiles(exports: unknown, folder: string, conditions: readonly string[]) {
  const all: Exported = { files: [], absent: [], perhaps: [] };
  for (const [key, target] of Object.entries(exports ? bySubpath(exports) : {})) {
    const isThere = key.includes("*");
    for (const match of isThere ? await matchesOf(target, folder) : [""]) {
      const subpath = key.replace("*", () => match);
      add(all, isThere ? exports : { [key]: target }, { subpath, folder, conditions, isThere });
    }
  }
  if (all.files.length + all.absent.length === 0) {
    // No condition of node's is among them.
    all.files = all.perhaps.splice(0).map(({ path }) => path);
  }
  return all;
}

/** @param from.isThere whether only files that are there count */
function add(
  all: Exported, exports: unknown,
  from: { subpath: string, folder: string, conditions: readonly string[], isThere: boolean },
) {
  const { subpath, folder, isThere } = from;
  const url = urlOfFolder(absolute(folder));
  const chosen = ["import", "require"].flatMap((mode) => {
    const conditions = new Set([...NODE_CONDITIONS, ...from.conditions, mode]);
    const target = exportsTarget(exports, subpath, { folder: url, conditions });
    return target.kind === "file" ? target.url.href : [];
  });
  for (const target of allTargets(exports, subpath, url)) {
    const own = pathOfUrl(target);
    const text = `./${relative(absolute(folder), own ?? "")}`;
    const path = join(folder, text);
    const isMeant = own !== undefined && !isDeclaration(path) && (isModule(path) || !/\.\w+$/.test(path));
    if (isMeant && chosen.includes(target.href)) {
      (isFile(path) ? all.files : isThere ? [] : all.absent).push(isFile(path) ? path : text);
    } else if (isMeant && isFile(path)) {
      all.perhaps.push({ path, text });
    }
  }
}

/** @returns what the `*` of a pattern may stand for, by the files of a package */
async function matchesOf(target: unknown, folder: string): Promise<Set<string>> {
  const matches = new Set<string>();
  for (const text of textsIn(target).filter((each) => each.includes("*"))) {
    const texts = text.split("*");
    const base = join(folder, dirname(`${texts[0]}x`));
    for await (const { path } of findFiles(isFolder(base) ? [base] : [], {})) {
      const name = `./${relative(folder, path)}`;
      const length = (name.length - texts.join("").length) / (texts.length - 1);
      const match = name.slice(texts[0].length, texts[0].length + length);
      if (length > 0 && texts.join(match) === name) {
        matches.add(match);
      }
    }
  }
  return matches;
}
