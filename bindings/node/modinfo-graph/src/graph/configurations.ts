/** The tsconfig.json and jsconfig.json that are for files, and where names may be by these and by import maps. */

import { isBuiltin } from "node:module";
import { dirname, join, relative, resolve as absolute, sep } from "node:path";

import { foldersFrom, memoized, nearest } from "../files/by_folder.js";
import { withoutEnding } from "../files/file_kinds.js";
import { matchesPath } from "../files/globs.js";
import { NEVER_INCLUDED, TO_REQUIRE } from "./conventions.js";
import { isPath, pathOf } from "./names.js";
import {
  type Format, Notices, type PackageManifests, firstIn, isThere, membersAt, parseWithComments,
} from "./package_manifests.js";
import { isObject, longestPattern } from "./package_targets.js";
import type { RegularFiles } from "../files/regular_files.js";
import type { Configured, ImportMaps } from "./import_maps.js";

const NAMES = ["tsconfig.json", "jsconfig.json"];
const MAX_EXTENDED = 32;
/** After how many merged configurations each is merged once, also where some extend each other in a loop. */
const MAX_MERGED = 1000;
const HAS_WILDCARD_OR_EXTENSION = /[*?]|\.[^./]+$/;
const CONFIG_DIR = /^\$\{configDir\}/i;

/**
 * The options that decide what names lead to, with absolute paths; `paths` has targets by the patterns of
 * names, as they are written, `pathsFolder` is the folder of the configuration that has it; `module` is in
 * lower case.
 */
export type Options =
  & { [Name in "pathsFolder" | "baseUrl" | "rootDir" | "outDir" | "declarationDir" | "module"]?: string }
  & { [Name in "rootDirs" | "moduleSuffixes"]?: string[] }
  & { paths?: Map<string, string[]>, jsxImportSource?: string };

/** Which files a configuration includes, where it says so; absolute patterns */
type Lists = { [Name in "files" | "include" | "exclude"]?: string[] };

/** A configuration together with those that it extends, perhaps in a loop; null takes an inherited option away. */
type Extended = { options: { [Name in keyof Options]: Options[Name] | null } }
  & { members: Lists & { references?: unknown }, isInLoop: boolean };

type Merged = { known: Map<string, Extended>, count: number };

/** Together with those that it extends; `references` are the paths of those that it refers to. */
export type Configuration = Required<Lists>
  & { path: string, folder: string, options: Options, references: string[] };

export class Configurations {
  readonly notices = new Notices();

  /** @param fixed the absolute path of a configuration for all files */
  constructor(private readonly files: RegularFiles, private readonly fixed?: string) {}

  /**
   * The configuration for a file: the nearest one or, where that refers to others and doesn't include the
   * file itself, the first one of these that does; none for an installed file. And whether it includes the
   * file, or is for all files.
   */
  readonly of = memoized((file: string): { configuration?: Configuration, isIncluded: boolean } => {
    const all = file.includes("/node_modules/") ? [] : this.allOf(dirname(file));
    const including = all.find((each) => includes(each, file));
    const isFixed = all.length > 0 && this.fixed !== undefined;
    return { configuration: including ?? all[0], isIncluded: including !== undefined || isFixed };
  });

  /** The nearest configuration of a folder, with those that it refers to, each once. */
  allOf(folder: string): Configuration[] {
    const own = this.fixed === undefined ? this.nearest(folder) : this.read(this.fixed);
    const found = new Set(own && [own]);
    for (const { references } of found) {
      references.filter((path) => isThere(path, this.files)).forEach((path) => found.add(this.read(path)));
    }
    return [...found];
  }

  private readonly nearest = nearest((folder) => {
    const path = firstIn(folder, NAMES, this.files);
    return path === undefined ? undefined : this.read(path);
  });

  private readonly read = memoized((path: string): Configuration => {
    const { options: all, members } = this.extended(path, [], { known: new Map(), count: 0 });
    const folder = dirname(path);
    const options: Options = Object.fromEntries(Object.entries(all).filter(([, value]) => value !== null));
    const include = members.files ? [] : [join(folder, "**/*")];
    const exclude = [...NEVER_INCLUDED.map((each) => join(folder, each)), ...outDirsOf(options)];
    const references = this.referencesOf(path, members.references);
    return { path, folder, options, files: [], include, exclude, ...members, references };
  });

  /** A configuration together with those that it extends; `extending` has the paths of those that lead to it. */
  private extended(path: string, extending: string[], merged: Merged): Extended {
    const known = merged.known.get(path);
    if (known) {
      return known;
    }
    merged.count++;
    const members = membersAt(path, parseWithComments, this.files, this.notices);
    const paths = [...extending, path];
    const place = placeOf(dirname(path), dirname(paths[0]), (why) => this.notices.add(path, why));
    const all: Extended = { options: {}, members: {}, isInLoop: false };
    for (const name of [members.extends ?? []].flat()) {
      const other = this.extendedPath(name, path);
      const isInLoop = other !== undefined && (paths.includes(other) || paths.length > MAX_EXTENDED);
      const inherited = other === undefined || isInLoop ? undefined : this.extended(other, paths, merged);
      all.isInLoop ||= isInLoop || (inherited?.isInLoop ?? false);
      Object.assign(all.options, inherited?.options);
      Object.assign(all.members, inherited?.members);
      if (!inherited) {
        const shown = typeof name === "string" ? JSON.stringify(name) : "a value that isn't a string";
        place.note(`"extends" has ${shown}, which isn't found or extends this file`);
      }
    }
    Object.assign(all.options, optionsOf(members.compilerOptions, place));
    Object.assign(all.members, listsOf(members, place), { references: members.references });
    // What a loop leaves out depends on where it is entered.
    if (!all.isInLoop || merged.count > MAX_MERGED) {
      merged.known.set(path, all);
    }
    return all;
  }

  private extendedPath(name: unknown, path: string): string | undefined {
    if (typeof name !== "string") {
      return undefined;
    }
    const folder = dirname(path);
    const [places, endings] = isPath(name)
      ? [[absolute(folder, name)], ["", ".json"]]
      : [foldersFrom(folder).map((each) => join(each, "node_modules", name)), ["", ".json", "/tsconfig.json"]];
    return places.flatMap((place) => endings.map((ending) => place + ending))
      .find((each) => isThere(each, this.files));
  }

  private referencesOf(path: string, references: unknown = []): string[] {
    const paths = [references].flat().map((each) => (isObject(each) ? each.path : undefined));
    const texts = paths.filter((each): each is string => typeof each === "string");
    if (texts.length < paths.length) {
      this.notices.add(path, `"references" has more than objects with a "path"`);
    }
    return texts.map((each) => absolute(dirname(path), each))
      .map((each) => (this.files.at(each).kind === "folder" ? join(each, NAMES[0]) : each));
  }
}

function outDirsOf({ outDir, declarationDir }: Options): string[] {
  return [outDir, declarationDir].flatMap((each) => each ?? []);
}

/** @param main the folder of the configuration that extends all others, which is `${configDir}` */
function placeOf(folder: string, main: string, note: (why: string) => void) {
  const filled = (path: string) => path.replace(CONFIG_DIR, () => `${main}/`);
  return { folder, note, filled, at: (path: string) => absolute(folder, filled(path)) };
}

/** The folder of the file whose options are read, and what makes paths of the texts in it */
type Place = ReturnType<typeof placeOf>;
/** The shape that an option has, and what is read of one; nothing where it has another shape */
type Reader = [shape: string, read: (value: unknown, place: Place) => unknown];

const text = (change: (value: string, place: Place) => string): Reader => {
  return ["a string", (value, place) => (typeof value === "string" ? change(value, place) : undefined)];
};
const PATH = text((value, { at }) => at(value));

const READERS: Record<Exclude<keyof Options, "pathsFolder">, Reader> = {
  paths: ["an object", pathsOf],
  baseUrl: PATH,
  rootDirs: ["a list of strings", (value, { at }) => textsOf(value)?.map(at)],
  rootDir: PATH,
  outDir: PATH,
  declarationDir: PATH,
  module: text((value) => value.toLowerCase()),
  moduleSuffixes: ["a list of strings", textsOf],
  jsxImportSource: text((value) => value),
};

function optionsOf(options: unknown = {}, place: Place): Extended["options"] {
  if (!isObject(options)) {
    place.note(`"compilerOptions" must be an object`);
    return {};
  }
  const own: Extended["options"] = {};
  for (const [name, [shape, read]] of Object.entries(READERS).filter(([each]) => Object.hasOwn(options, each))) {
    const value = options[name] === null ? null : read(options[name], place);
    if (value === undefined) {
      place.note(`${JSON.stringify(name)} is ignored: not ${shape}`);
    }
    Object.assign(own, value !== undefined && { [name]: value });
  }
  return own.paths === undefined ? own : { ...own, pathsFolder: own.paths && place.folder };
}

function pathsOf(paths: unknown, { filled, note }: Place): Map<string, string[]> | undefined {
  return isObject(paths) ? new Map(Object.entries(paths).flatMap(([pattern, targets]) => {
    const texts = Array.isArray(targets) ? textsOf(targets) : undefined;
    if (!texts) {
      note(`${JSON.stringify(pattern)} of "paths" is ignored: not a list of strings`);
    }
    return texts ? [[pattern, texts.map(filled)]] : [];
  })) : undefined;
}

/** @returns also where it is one text */
function textsOf(value: unknown): string[] | undefined {
  const list = [value].flat();
  return list.every((each): each is string => typeof each === "string") ? list : undefined;
}

function listsOf(members: Record<string, unknown>, { at }: Place): Lists {
  return Object.fromEntries(["files", "include", "exclude"].flatMap((name) => {
    const texts = Array.isArray(members[name]) ? textsOf(members[name]) : undefined;
    return texts ? [[name, texts.map(at)]] : [];
  }));
}

function includes({ files, include, exclude }: Configuration, file: string) {
  // A pattern without a wildcard or an ending is a folder's, and has all below it.
  const has = (pattern: string) => {
    const isFile = HAS_WILDCARD_OR_EXTENSION.test(pattern.slice(pattern.lastIndexOf("/") + 1));
    return (isFile && matchesPath(pattern, file)) || matchesPath(join(pattern, "**"), file);
  };
  return files.includes(file) || (include.some(has) && !exclude.some(has));
}

export class ConfiguredNames {
  constructor(
    private readonly manifests: PackageManifests, private readonly configurations: Configurations,
    private readonly importMaps: ImportMaps, private readonly isBrowser: boolean,
  ) {}

  formatOf(file: string, isTypeScript: boolean): Format | undefined {
    const isDeno = this.importMaps.of(file)?.isDeno;
    const format = isDeno ? "import" : this.manifests.formatOf(file);
    if (isDeno || !isTypeScript) {
      return format;
    }
    const { configuration } = this.configurations.of(file);
    const { module = "" } = configuration?.options ?? {};
    if (!configuration || module.startsWith("node")) {
      return format ?? "require";
    }
    return TO_REQUIRE.includes(module) ? "require" : format === "import" ? format : undefined;
  }

  /** Where a name in a file may be, before other rules are asked. */
  find(specifier: string, importer: string): Configured | undefined {
    const mapped = this.importMaps.find(specifier, importer);
    const isFirst = !mapped && !isPath(specifier) && this.configurations.of(importer).isIncluded;
    return isFirst ? byTsconfig(this.inNames(specifier, importer)) : mapped;
  }

  /** Where a name in a file may be that no other rule finds. */
  findElsewhere(specifier: string, importer: string): Configured | undefined {
    const { configuration, isIncluded } = this.configurations.of(importer);
    if (isPath(specifier)) {
      return byTsconfig(inRootDirs(specifier, importer, configuration?.options.rootDirs));
    }
    return isIncluded ? undefined : byTsconfig(this.inNames(specifier, importer));
  }

  private inNames(specifier: string, importer: string): string[] {
    const { options = {} } = this.configurations.of(importer).configuration ?? {};
    const { baseUrl, paths } = options;
    const isNode = !this.isBrowser && isBuiltin(specifier) && !paths?.has(specifier);
    const inBase = baseUrl === undefined ? [] : [pathOf(specifier, baseUrl)];
    return isNode ? [] : [...inPaths(specifier, options), ...inBase];
  }

  /** @returns the same for files of a folder of which each name leads to the same */
  scopeOf(file: string): string {
    const { configuration, isIncluded } = this.configurations.of(file);
    return this.importMaps.of(file) ? file : `${isIncluded} ${configuration?.path}`;
  }

  /** Where the source of a compiled file may be: paths of JavaScript, and without what is added to names. */
  sourcesOf(path: string): string[] {
    return this.configurations.allOf(dirname(path)).flatMap((configuration) => {
      const outDirs = outDirsOf(configuration.options);
      const inside = outDirs.filter((each) => path.startsWith(each + sep)).map((each) => relative(each, path));
      // The source of x.cjs and of x.d.cts is x.cts, if that is there.
      const names = inside.map((each) => [each.replace(/\.d\.([cm]?)ts$/, ".$1js"), withoutEnding(each)]);
      const folders = sourceFolders(configuration);
      return names.flatMap((each) => folders.flatMap((folder) => each.map((name) => join(folder, name))));
    });
  }
}

function byTsconfig(paths: string[]): Configured | undefined {
  return paths.length > 0 ? { by: "tsconfig", paths } : undefined;
}

/** The paths of a name by `paths`: of the pattern that it is, else of the longest one for it. */
function inPaths(specifier: string, { baseUrl, paths = new Map(), pathsFolder = "" }: Options): string[] {
  const best = paths.has(specifier) ? undefined : longestPattern([...paths.keys()], specifier);
  const targets = paths.get(best?.key ?? specifier) ?? [];
  return targets.map((each) => pathOf(best ? each.replace("*", () => best.match) : each, baseUrl ?? pathsFolder));
}

function inRootDirs(specifier: string, importer: string, rootDirs: string[] = []): string[] {
  const path = pathOf(specifier, dirname(importer));
  const inside = rootDirs.filter((each) => path.startsWith(each + sep))
    .sort((one, other) => other.length - one.length)[0];
  return inside === undefined ? [] : rootDirs.map((each) => join(each, path.slice(inside.length)));
}

function sourceFolders({ folder, include, options: { rootDir, rootDirs = [] } }: Configuration): string[] {
  const included = include.map((pattern) => pattern.replace(/\/[^/]*[*?].*$|\/[^/]*\.[^/]*$/, ""));
  const guessed = [...included, join(folder, "src"), folder];
  return rootDir === undefined ? [...new Set([...rootDirs, ...guessed])] : [rootDir];
}
