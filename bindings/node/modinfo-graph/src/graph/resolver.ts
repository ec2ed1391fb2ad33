/** What the names in modules lead to. */

import { dirname, resolve as absolute } from "node:path";
import { fileURLToPath } from "node:url";

import { memoized } from "../files/by_folder.js";
import {
  declarationOf, globalFolders, isAsset, isDeclaration, isInstalled, isTypeScript,
} from "../files/file_kinds.js";
import { RegularFiles, type System } from "../files/regular_files.js";
import { urlOfPath } from "../files/urls.js";
import { Configurations, ConfiguredNames, type Options } from "./configurations.js";
import { ImportMaps } from "./import_maps.js";
import { packageOf, schemeOf } from "./names.js";
import { fileAt } from "./node_rules.js";
import { type Format as Mode, PackageManifests, projectsOf } from "./package_manifests.js";
import { type Named, type Syntax, namedBy } from "./references.js";
import { type Importer, type Name, type Run, Search } from "./search.js";
import { TypeScriptTypes } from "./typescript_types.js";
import type { ModuleInfo, PositionRange } from "modinfo";
import type { ResolveOptions } from "../options.cjs";
import type { Ends, Resolution, Rules } from "./graph.cjs";

const MAX_LENGTH = 4096;
/** How many names are kept, and the most characters of one. */
const MAX_KNOWN = 500_000;
const MAX_KNOWN_LENGTH = 200;
/** What a package that isn't installed may be called. */
const PACKAGE_NAME = /^(?:@[^/!]+\/)?[^.@/!][^/!]*$/;

/** Like those of the package, as paths */
export interface ResolverOptions extends Pick<ResolveOptions, "conditions" | "types"> {
  /** Without it and a project, all that no link leads to is inside, and the nearest folder with packages. */
  root?: string | readonly string[];
  /** Whether `types` is the declaration file beside what runs, without TypeScript: true, where it is missing. */
  declarations?: boolean;
  /** absolute */
  tsconfig?: string;
  /** The folders in which a `require` looks last: those of NODE_PATH and node's own, where it is missing. */
  globalFolders?: readonly string[];
  /** What looks at files and opens them: `node:fs`, where it is missing. */
  system?: System;
}

/** A resolver looks at each file once: what changes after that isn't seen. */
export class Resolver {
  readonly manifests;
  readonly search;
  private readonly files;
  private readonly configurations;
  private readonly importMaps;
  private readonly names;
  private readonly types;
  private readonly projectOf;
  /** By what decides where names lead. */
  private readonly known = memoized((_key: string): Importer["known"] => new Map());
  private knownCount = 0;

  constructor(private readonly options: ResolverOptions = {}) {
    const { root = [], conditions = [], types = false, tsconfig, system } = options;
    const globals = (options.globalFolders ?? globalFolders).map((each) => absolute(each));
    this.files = new RegularFiles(system);
    this.projectOf = projectsOf(this.files);
    [root].flat().forEach((each) => this.files.addProject(absolute(each)));
    globals.forEach((each) => this.files.addFolder(each));
    this.manifests = new PackageManifests(this.files);
    this.configurations = new Configurations(this.files, tsconfig);
    this.importMaps = new ImportMaps(this.files);
    const isBrowser = conditions.includes("browser");
    this.names = new ConfiguredNames(this.manifests, this.configurations, this.importMaps, isBrowser);
    this.search = new Search(this.files, this.manifests, this.names, conditions, globals);
    this.types = types ? new TypeScriptTypes(this.files, this.configurations, conditions) : undefined;
  }

  /** What a name leads to, in the module at an absolute path. */
  resolve(
    specifier: string, from: string,
    { kind: syntax = "import", mode, isScript = false }: { kind?: Syntax, mode?: Mode, isScript?: boolean } = {},
  ): Resolution {
    return this.resolution({ specifier, syntax, mode }, this.importer(from, isScript));
  }

  /** Sets `resolved` in all that names a module, and returns these objects; `real` is the path without links. */
  resolveInfo(info: ModuleInfo, path: string, real?: string): Named[] {
    const importer = this.importer(path, info.script === true, real);
    const all = [...namedBy(info), ...this.jsxOf(info, importer)];
    all.forEach((named) => (named.node.resolved = this.resolution(named, importer)));
    return all;
  }

  /** @returns the path of the file that a name leads to, in the module at a path */
  fileOf(specifier: string, from: string): string | undefined {
    const { file } = this.resolve(specifier, absolute(from)) as { file?: string };
    return file && fileURLToPath(file);
  }

  /** The files that a name leads to where other conditions hold; `path` is the file that it leads to else. */
  others(specifier: string, from: string, path?: string): string[] {
    return this.search.others(specifier, this.importer(from, false), path);
  }

  /** What was found wrong with manifests and configurations since the last call. */
  takeNotices(): string[] {
    const all = [this.manifests, this.configurations, this.importMaps, this.types];
    return all.flatMap((each) => each?.notices.take() ?? []);
  }

  /** What a configuration has JSX made by, where it is a module of the project. */
  private jsxOf({ jsxImportSource }: ModuleInfo, importer: Importer): Named[] {
    const isJsx = !jsxImportSource && /\.[jt]sx$/i.test(importer.path);
    const specifier = isJsx ? this.optionsOf(importer.path).jsxImportSource : undefined;
    const resolved = specifier && this.resolution({ specifier, syntax: "jsx" }, importer);
    const range: PositionRange = [[0, 0], [0, 0]];
    return resolved && resolved.class === "file"
      ? [{ node: { text: specifier, range, resolved }, kind: "jsx", syntax: "jsx", specifier, range }]
      : [];
  }

  private importer(from: string, isScript: boolean, real?: string): Importer {
    if (!this.options.root?.length) {
      this.addProject(dirname(from));
    }
    const entry = real === undefined ? this.files.at(absolute(from)) : undefined;
    const path = real ?? (entry?.kind === "file" ? entry.path : absolute(from));
    const isSource = isTypeScript(path) && !isDeclaration(path) && !isInstalled(path);
    const suffixes = isSource ? this.optionsOf(path).moduleSuffixes : undefined;
    const format = this.names.formatOf(path, isSource);
    const key = `${isSource} ${isScript} ${format} ${dirname(path)}\0${this.names.scopeOf(path)}`;
    return { path, isTypeScript: isSource, isScript, format, suffixes, known: this.known(key) };
  }

  private optionsOf(path: string): Options {
    return this.configurations.of(path).configuration?.options ?? {};
  }

  private readonly addProject = memoized((folder: string) => {
    const { project, isWhole } = this.projectOf(folder);
    if (project !== undefined) {
      this.files.addProject(project);
    }
    this.files.hasAllWithoutLinks ||= !isWhole;
  });

  private resolution(named: Pick<Named, "specifier" | "syntax" | "mode">, importer: Importer): Resolution {
    const { specifier, syntax, mode } = named;
    if (specifier === undefined || specifier === "" || specifier.length > MAX_LENGTH || specifier.includes("\0")) {
      return { class: specifier === undefined ? "unknown" : "missing" };
    }
    const key = `${syntax} ${mode} ${specifier}`;
    const known = importer.known.get(key);
    const found = known ?? this.found({ specifier, syntax, mode }, importer);
    if (!known && specifier.length <= MAX_KNOWN_LENGTH && this.knownCount < MAX_KNOWN) {
      this.knownCount++;
      importer.known.set(key, found);
    }
    return found;
  }

  private found(named: Name, importer: Importer): Resolution {
    const { specifier, syntax } = named;
    if (syntax === "path") {
      return this.referenced(specifier, importer);
    }
    const name = syntax === "jsx" ? `${specifier}/jsx-runtime` : specifier;
    const all = { ...named, specifier: name };
    const run = this.search.find(all, importer);
    const types = this.types ? this.types.find(all, importer) : this.typesBeside(run);
    // A URL without a scheme is a path.
    const isPathOfPage = syntax === "url" && !schemeOf(name);
    return this.classified(isPathOfPage ? `./${name}` : name, importer, run, types);
  }

  private typesBeside({ found }: Run): string | undefined {
    const { declarations = true } = this.options;
    const path = declarations && found.kind === "file" ? declarationOf(found.path) : undefined;
    const beside = path && fileAt(path, this.files);
    return beside && beside.kind === "file" ? beside.path : undefined;
  }

  private referenced(specifier: string, { path }: Importer): Resolution {
    const found = fileAt(absolute(dirname(path), specifier), this.files);
    return found.kind === "outside" ? { class: "outside", target: urlOfPath(found.path) }
      : found.kind === "file" ? { class: "file", file: urlOfPath(found.path) } : { class: "missing" };
  }

  /** @param types the path of what has the types */
  private classified(specifier: string, importer: Importer, run: Run, types: string | undefined): Resolution {
    const { found, by } = run;
    if (found.kind !== "file" && found.kind !== "none") {
      const { kind } = found;
      return kind === "outside" ? { class: kind, target: urlOfPath(found.path) } : { class: kind };
    }
    const { name } = packageOf(specifier) ?? {};
    const path = found.kind === "file" ? found.path : undefined;
    const first = path ?? types;
    if (first === undefined) {
      const isKnown = name === undefined || !PACKAGE_NAME.test(name) || this.search.hasPackage(name, importer);
      return isKnown ? { class: "missing" } : { class: "package", package: name };
    }
    const files = filesOf(path, types, by);
    const all = { ...files, ...(by && { by }) };
    return name !== undefined && isInstalled(first) ? { class: "package", package: name, ...all }
      : files.file && isAsset(first) ? { class: "asset", file: files.file, ...all } : { class: "file", ...all };
  }
}

/** @returns URLs. A declaration file has types alone, unless it is named as it is */
function filesOf(run?: string, types?: string, by?: Rules): Pick<Ends, "file" | "types"> {
  const file = run === undefined || (isDeclaration(run) && by !== "node") ? undefined : run;
  const other = types ?? (file === undefined ? run : undefined);
  return { ...(file && { file: urlOfPath(file) }), ...(other && other !== file && { types: urlOfPath(other) }) };
}
