/**
 * Packages that modules import and no package.json lists, and the reverse. Something else than an import may
 * name these: a search in texts is not exact, but a wrong reason costs a look, a missing one a package.
 */

import { basename, dirname, join, resolve as absolute } from "node:path";
import { fileURLToPath } from "node:url";

import { memoized } from "../files/by_folder.js";
import { globalFolders } from "../files/file_kinds.js";
import { RegularFiles, readRegularFile } from "../files/regular_files.js";
import { urlOfPath } from "../files/urls.js";
import { unlessThrown } from "../runtime/faults.js";
import { CONFIGURATION_FOLDERS, NO_CONFIGURATION } from "./conventions.js";
import { packageOf, typesOf } from "./names.js";
import { PackageFolders } from "./package_folders.js";
import { LISTS, type Manifest, PackageManifests, packagesIn, projectsOf } from "./package_manifests.js";
import { isObject } from "./package_targets.js";
import type { Ends, GraphModule, Mention, Reference } from "./graph.cjs";
import type { ModuleGraph } from "./module_graph.js";

/** `manifest` is the URL of the nearest package.json, `by` has a reference of each file */
type Unlisted = { package: string, manifest?: string, by: Mention[] };
type Unused = { package: string, manifest: string, list: string };
type PackageUse = { unlisted: Unlisted[], unused: Unused[], mayBeUsed: (Unused & { reason: PackageReason })[] };
/** The members of a package.json that list packages which its modules may import. */
const ALL_LISTS = [...LISTS, "optionalDependencies"];
const INSTALLED = /^.*\/node_modules\/((?:@[^/]+\/)?[^/]+)\//s;

/** A package.json counts that is in one of the named paths, or is the nearest of a module. */
export function packageUse(graph: ModuleGraph, project: { pages: string[], paths: string[] }): PackageUse {
  const lists = listings();
  const found: PackageUse = { unlisted: unlistedIn(graph, lists), unused: [], mayBeUsed: [] };
  const nearest = graph.listed.flatMap(({ specifier }) => lists.above(fileURLToPath(specifier))[0] ?? []);
  const named = project.paths.flatMap((path) => lists.manifests.of(absolute(path)) ?? []);
  const reasonOf = packageReasons(lists.files, lists.manifests, graph.modules, project.pages);
  for (const manifest of new Set([...named, ...nearest])) {
    const used = lists.usedBelow(manifest);
    const url = urlOfPath(manifest.path);
    const listed = LISTS.flatMap((list) => packagesIn(manifest, [list]).map((name) => ({ list, name })));
    for (const { list, name } of listed.filter((each) => !used.has(each.name))) {
      const reason = reasonOf(name, manifest, used);
      const unused = { package: name, manifest: url, list };
      if (reason) {
        found.mayBeUsed.push({ ...unused, reason });
      } else {
        found.unused.push(unused);
      }
    }
  }
  return found;
}

function listings() {
  const files = new RegularFiles();
  files.hasAllWithoutLinks = true;
  const manifests = new PackageManifests(files);
  const projectOf = projectsOf(files);
  const inFolder: (folder: string) => Manifest[] = memoized((folder) => {
    const { project = folder } = projectOf(folder);
    files.addProject(project);
    const own = manifests.of(folder);
    const isOfPackage = own && (own.name !== undefined || packagesIn(own, ALL_LISTS).length > 0);
    return [...(isOfPackage ? [own] : []), ...(folder === project ? [] : inFolder(dirname(folder)))];
  });
  /** The manifests with a name or a list above a file, in its project, the nearest first. */
  const above = (path: string) => inFolder(dirname(path));
  /** Whether a package.json above a file lists a package, or has its name. */
  const isListed = (name: string, path: string) => {
    return above(path).some((each) => each.name === name || packagesIn(each, ALL_LISTS).includes(name));
  };
  /** The packages that the modules below a manifest import. */
  const usedBelow = memoized((_manifest: Manifest) => new Set<string>());
  return { files, manifests, above, isListed, usedBelow };
}

type Listings = ReturnType<typeof listings>;

/** Counts what modules import as used, and returns what isn't listed. */
function unlistedIn(graph: ModuleGraph, lists: Listings): Unlisted[] {
  const found: Map<string, Unlisted> = new Map();
  for (const { specifier: module, references, isExcluded } of graph.modules) {
    const path = fileURLToPath(module);
    for (const reference of INSTALLED.test(path) ? [] : references) {
      const name = packageNamed(reference, path, lists);
      if (name === undefined) {
        continue;
      }
      lists.above(path).forEach((manifest) => lists.usedBelow(manifest).add(name));
      const isListed = [name, typesOf(name)].some((each) => lists.isListed(each, path));
      if (!isListed && !isExcluded && reference.resolved.class !== "builtin") {
        const [nearest] = lists.above(path);
        const key = `${nearest?.path} ${name}`;
        const { by, ...unlisted } = found.get(key) ??
          { package: name, ...(nearest && { manifest: urlOfPath(nearest.path) }), by: [] };
        const isKnown = by.some((each) => each.module === module);
        found.set(key, { ...unlisted, by: isKnown ? by : [...by, { module, reference }] });
      }
    }
  }
  return [...found.values()];
}

/** The package that the module at a path needs, or the built-in module whose name a package may have. */
function packageNamed({ specifier = "", resolved }: Reference, path: string, lists: Listings): string | undefined {
  const { class: kind, package: installed, file, by } = resolved as Ends;
  const { name: own } = packageOf(specifier) ?? {};
  const target = file && fileURLToPath(file);
  if (installed !== undefined || specifier.startsWith("#")) {
    return installed ?? (target && INSTALLED.exec(target)?.[1]);
  }
  const isFound = own !== undefined && target && (by === "node" || by === "bundler");
  const isWorkspace = isFound && lists.above(target)[0]?.name === own;
  const isListed = kind === "missing" && lists.isListed(own ?? "", path);
  return kind === "builtin" || isListed || isWorkspace ? own : undefined;
}

/** `file` is the URL of the file that has it, `text` the script, or the package whose peer it is. */
type PackageReason = { kind: "types" | "bin" | "configuration" | "peer" | "text", file: string, text?: string };
type Text = { file: string, text: string };
const MAX_BYTES = 2 ** 20;
/** Files that may configure a tool, and files of them that only list packages. */
const CONFIGURATION = /^\.|rc$|config|\.(?:jsonc?|ya?ml|toml)$|^(?:Make|Docker|Just|Proc)file/;
const LOCK = /^(?:package\.json|package-lock\.json|npm-shrinkwrap\.json|pnpm-lock\.yaml|\.package-lock\.json)$/;
const STYLES = /\.(?:css|scss|sass|less)$/;

/** A package that configurations name without its tool, as `eslint-plugin-react` and `@babel/preset-env`. */
const OF_TOOL = /^(?:(@([^/]+))\/)?(?:([a-z]+)-)?(?:plugin|config|preset)(?:-(.+))?$/;

/** Returns a function that finds why a package may be used. It reads each text once. */
function packageReasons(
  files: RegularFiles, manifests: PackageManifests, modules: GraphModule[], pages: string[],
) {
  const folders = new PackageFolders(files, globalFolders);
  const installed = (name: string, { folder }: Manifest) => {
    const own = folders.required(name, folder);
    return own === undefined ? undefined : manifests.of(own);
  };
  const configurationsOf = memoized((manifest: Manifest) => configurations(manifest, files));
  const allTexts = memoized((_key: "") => textsOf([...new Set([...modules.flatMap(pathsOf), ...pages])]));
  /** Takes the package.json that lists a package, and all packages and built-in modules that are imported. */
  return (name: string, manifest: Manifest, used: Set<string>): PackageReason | undefined => {
    const ofText = (kind: PackageReason["kind"], text: string | undefined) => {
      return text === undefined ? undefined : { kind, file: urlOfPath(manifest.path), text };
    };
    const ofFile = (kind: PackageReason["kind"], file: string | undefined) => {
      return file === undefined ? undefined : { kind, file: urlOfPath(file) };
    };
    const needs = (listed: string) => packagesIn(installed(listed, manifest), ["peerDependencies"]).includes(name);
    // The types of what is used, and those of a tool that is listed.
    const types = [...used, "node", ...packagesIn(manifest, LISTS)];
    return ofText("types", types.find((each) => typesOf(each) === name)) ??
      ofText("bin", scriptCalling(name, manifest, installed(name, manifest)?.members.bin)) ??
      ofFile("configuration", configurationNaming(name, configurationsOf(manifest))) ??
      ofText("peer", packagesIn(manifest, LISTS.slice(0, 2)).find(needs)) ??
      ofFile("text", textNaming(name, allTexts("")));
  };
}

/** The script of a package.json that calls a program of a package, which has its name, or names in its `bin`. */
function scriptCalling(name: string, { members: { scripts } }: Manifest, bin: unknown): string | undefined {
  const calls = wordsPattern([name, ...(isObject(bin) ? Object.keys(bin) : [basename(name)])]);
  const lines = Object.entries(isObject(scripts) ? scripts : {});
  return lines.find(([, line]) => typeof line === "string" && calls.test(line))?.[0];
}

function configurationNaming(name: string, texts: Text[]): string | undefined {
  const words = wordsPattern([name]);
  const [, scope, scopeName, own, rest] = OF_TOOL.exec(name) ?? [];
  const tool = own ?? scopeName;
  const short = [scope, rest].filter((each) => each !== undefined).join("/");
  const shorts = tool === undefined || short === "" ? undefined : wordsPattern([short], "(?:plugin:)?");
  const isNamed = ({ file, text }: Text) => {
    return isOfTool(basename(file), name) || words.test(text) ||
      (shorts?.test(text) && (file + text).includes(tool));
  };
  return texts.find(isNamed)?.file;
}

function textNaming(name: string, texts: Text[]): string | undefined {
  const quoted = new RegExp(`["'\`]~?${escaped(name)}(?:/[^"'\`\\n]*)?["'\`]`);
  return texts.find(({ text }) => quoted.test(text))?.file;
}

function configurations({ folder, path, members }: Manifest, files: RegularFiles): Text[] {
  const own = Object.entries(members).filter(([member]) => !NO_CONFIGURATION.includes(member));
  const named = CONFIGURATION_FOLDERS.map((each) => join(folder, each)).flatMap((each) => {
    return files.namesIn(each, "file").filter((name) => CONFIGURATION.test(name) && !LOCK.test(name))
      .map((name) => join(each, name));
  });
  return [{ file: path, text: JSON.stringify(Object.fromEntries(own)) }, ...textsOf(named)];
}

function pathsOf({ specifier, references }: GraphModule): string[] {
  const assets = references.flatMap(({ resolved }) => (resolved.class === "asset" ? [resolved.file] : []));
  return [specifier, ...assets.filter((url) => STYLES.test(url))].map((url) => fileURLToPath(url));
}

function textsOf(paths: string[]): Text[] {
  return paths.flatMap((file) => {
    return unlessThrown(() => ({ file, text: String(readRegularFile(file, MAX_BYTES)) })) ?? [];
  });
}

/** Whether a file configures the tool of a package by its name, as tsconfig.json, .eslintrc, jest.config.js. */
function isOfTool(file: string, name: string) {
  const [, word] = /^\.?([a-z][a-z-]*?)(?:rc)?(?:\.|$)/.exec(file) ?? [];
  return word === name || [`@${word}/core`, `@${word}/cli`].includes(name) ||
    (name === "typescript" && word === "tsconfig");
}

/** Matches a word that is no part of another one; a path may follow it, and a pattern may be before it. */
function wordsPattern(words: string[], before: string = ""): RegExp {
  return new RegExp(`(?<![\\w@./-])${before}(?:${words.map(escaped).join("|")})(?![\\w.-])`);
}

const escaped = (text: string): string => text.replace(/[\\^$.*+?()[\]{}|/-]/g, "\\$&");
