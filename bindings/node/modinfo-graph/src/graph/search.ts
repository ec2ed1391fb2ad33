/**
 * What runs for a name: `browser` and configurations come first, in TypeScript then a TypeScript file, then
 * node's rules, those of bundlers, other `rootDirs`, and the names of a configuration that doesn't include
 * the file.
 */

import { isBuiltin } from "node:module";
import { dirname, join, relative, resolve as absolute } from "node:path";

import { isDeclaration, isTypeScript, withoutEnding } from "../files/file_kinds.js";
import { pathOfUrl, urlOfFolder } from "../files/urls.js";
import { BundlerRules, type Source, plainNames } from "./bundler_rules.js";
import { BUILT, BUNDLER_CONDITIONS, NODE_CONDITIONS } from "./conventions.js";
import { isPath, isRelative, packageOf, pathOf, schemeOf, typesOf } from "./names.js";
import { type Found, type Missing, NONE, NodeRules, firstOf } from "./node_rules.js";
import { PackageFolders, Workspaces } from "./package_folders.js";
import { allTargets } from "./package_targets.js";
import type { RegularFiles } from "../files/regular_files.js";
import type { ConfiguredNames } from "./configurations.js";
import type { Resolution, Rules } from "./graph.cjs";
import type { Configured } from "./import_maps.js";
import type { Format as Mode, PackageManifests } from "./package_manifests.js";
import type { Syntax } from "./references.js";

type Target = Found | { kind: "disabled" | "data" | "npm" | "jsr" | "url" };
export type Run = { found: Target, by?: Rules };
/** `mode` is what an attribute or a comment asks for */
export type Name = { specifier: string, syntax: Syntax, mode?: Mode };

/**
 * The file that has a name, by its path without links. `isTypeScript` is false for a declaration file, and
 * for an installed one; `isScript` is whether it has no syntax of ES modules, `format` what an `import` in it
 * becomes.
 */
export interface Importer extends Source {
  path: string;
  isScript: boolean;
  format: Mode | undefined;
  /** What names lead to, in all files of the folder that have the same rules */
  known: Map<string, Resolution>;
}

export class Search {
  private readonly packages;
  private readonly node;
  /** Node's rules where an import is looked for as a `require`, and where any condition holds. */
  private readonly importAsRequire;
  private readonly anyCondition;
  private readonly bundler;
  private readonly workspaces;
  private readonly isBrowser;

  /** @param conditions those of `exports` and `imports` besides node's own */
  constructor(
    private readonly files: RegularFiles, private readonly manifests: PackageManifests,
    private readonly names: ConfiguredNames, conditions: readonly string[], globalFolders: string[],
  ) {
    const rules = (own: readonly string[], ofRequire: Mode = "require") => {
      const all = [...own, ...conditions];
      return new NodeRules(files, manifests, this.packages, {
        import: new Set([...all, "import"]), require: new Set([...all, ofRequire]),
      });
    };
    this.packages = new PackageFolders(files, globalFolders);
    this.workspaces = new Workspaces(files, manifests);
    this.isBrowser = conditions.includes("browser");
    this.bundler = new BundlerRules(files, manifests, this.isBrowser ? ["browser"] : []);
    this.node = rules(NODE_CONDITIONS);
    this.importAsRequire = rules(NODE_CONDITIONS, "import");
    this.anyCondition = rules([...NODE_CONDITIONS, ...BUNDLER_CONDITIONS]);
  }

  find(named: Name, importer: Importer): Run {
    const run = named.syntax === "url" ? this.ofPage(named.specifier, importer)
      : this.replaced(named.specifier, importer) ?? this.byRules(named, importer);
    const { found } = run;
    return this.isBrowser && named.syntax !== "url" && found.kind === "file"
      ? this.instead(found.path, found.path, importer, found.path) ?? run : run;
  }

  /** Whether a package is there, with or without the file that is looked for. */
  hasPackage(name: string, { path }: Importer): boolean {
    return name === this.manifests.scopeOfFile(path)?.name || this.folderOf(name, path) !== undefined;
  }

  /** @returns the folder of an installed package, or of one of the project */
  private folderOf(name: string, path: string): string | undefined {
    return this.packages.required(name, dirname(path)) ?? this.workspaces.folderOf(name, path);
  }

  /**
   * Paths that a name leads to where other conditions hold: by `imports`, by `exports` of packages of the
   * project, and by `browser`, also in the place of the file at `path`, which the name leads to.
   */
  others(specifier: string, importer: Importer, path?: string): string[] {
    const scope = this.manifests.scopeOfFile(importer.path);
    const urls = specifier.startsWith("#") && scope
      ? allTargets(scope.imports, specifier, urlOfFolder(scope.folder), true)
      : this.allExports(specifier, importer);
    const ofFile = path === undefined ? [] : this.bundler.replacements(this.manifests.scopeOfFile(path), path);
    const replaced = [...this.bundler.replacements(scope, specifier), ...ofFile];
    return [...urls.flatMap((url) => pathOfUrl(url) ?? []), ...this.filesAt(replaced, importer)];
  }

  private filesAt(paths: string[], source: Source): string[] {
    const found = paths.map((each) => this.bundler.atPath(each, source));
    return found.flatMap((each) => (each.kind === "file" ? each.path : []));
  }

  private allExports(specifier: string, { path }: Importer): URL[] {
    const { name = "", rest } = packageOf(specifier) ?? {};
    const scope = this.manifests.scopeOfFile(path);
    const folder = scope?.name === name ? scope.folder : this.workspaces.folderOf(name, path);
    const exports = folder && this.manifests.of(folder)?.exports;
    return folder && exports ? allTargets(exports, `.${rest}`, urlOfFolder(folder)) : [];
  }

  /** What the `src` of a page's script leads to: a path from the page, or from the root of a server. */
  private ofPage(specifier: string, importer: Importer): Run {
    const url = specifier.startsWith("//") ? `https:${specifier}` : specifier;
    if (schemeOf(url)) {
      return { found: atUrl(url) };
    }
    const folder = dirname(importer.path);
    const root = this.manifests.scopeOf(folder)?.folder ?? folder;
    const folders = specifier.startsWith("/") ? [folder, root, join(root, "public")] : [folder];
    const names = plainNames(specifier).map((name) => `./${name.replace(/^\/+/, "")}`);
    const paths = names.flatMap((name) => folders.map((each) => pathOf(name, each)));
    const found = firstOf(paths, (path) => this.bundler.atPath(path, importer));
    return found ? { found, by: "bundler" } : { found: NONE };
  }

  /** The path of the source of a file that is there and was compiled, by a configuration. */
  sourceOf(path: string): string | undefined {
    return this.filesAt(this.names.sourcesOf(path), { isTypeScript: true })
      .find((each) => each !== path && !isDeclaration(each));
  }

  /** The paths below `src` at which the source of an output may be, which with `isMissing` isn't made yet. */
  likelySources(path: string, folders: string[] = ["src"], isMissing: boolean = false): string[] {
    const { folder = path } = this.manifests.scopeOfFile(path) ?? {};
    const isBelow = path.startsWith(`${folder}/`);
    const [output, ...names] = isBelow ? withoutEnding(relative(folder, path)).split("/") : [""];
    const isMeant = BUILT.includes(output) && !(isMissing && this.files.at(join(folder, output)).kind !== "none");
    return isMeant
      ? names.flatMap((_, at) => folders.map((each) => absolute(folder, each, ...names.slice(at))))
      : [];
  }

  private replaced(specifier: string, importer: Importer): Run | undefined {
    if (!this.isBrowser) {
      return undefined;
    }
    const hasPath = isPath(specifier);
    const key = hasPath ? absolute(dirname(importer.path), specifier) : specifier;
    const { name, rest } = packageOf(specifier) ?? {};
    const folder = name && rest === "" ? this.packages.required(name, dirname(importer.path)) : undefined;
    const own = folder && this.manifests.of(folder);
    const hasMain = own && typeof own.members.browser === "string" && !own.exports;
    return this.instead(key, hasPath ? key : importer.path, importer) ??
      (hasMain ? { found: this.bundler.inPackage(own.folder, "", importer), by: "bundler" } : undefined);
  }

  /** What is at the path or the name that `browser` of the package of a file has in the place of another one. */
  private instead(key: string, file: string, importer: Importer, from = importer.path): Run | undefined {
    const other = this.bundler.replacement(this.manifests.scopeOfFile(file), key);
    return other === undefined ? undefined : other === false ? { found: { kind: "disabled" } } : {
      found: other.startsWith("/") ? this.bundler.atPath(other, importer) : this.node.import(other, from),
      by: "bundler",
    };
  }

  private byRules(named: Name, importer: Importer): Run {
    const { specifier } = named;
    const run = this.byConfiguration(this.names.find(specifier, importer.path), importer) ??
      this.bySource(specifier, importer) ?? byScheme(specifier) ?? this.byNodeAndBundlers(named, importer);
    return run.found.kind === "none"
      ? this.byConfiguration(this.names.findElsewhere(specifier, importer.path), importer) ?? run
      : run;
  }

  private byConfiguration(configured: Configured | undefined, importer: Importer): Run | undefined {
    const { by, paths = [], name } = configured ?? {};
    const found = firstOf(paths, (path) => this.bundler.atPath(path, importer));
    return found || name === undefined ? found && { found, by }
      : byScheme(name) ?? { ...this.byNodeAndBundlers({ specifier: name, syntax: "import" }, importer), by };
  }

  private bySource(specifier: string, importer: Importer): Run | undefined {
    const isMeant = importer.isTypeScript && isRelative(specifier);
    const wanted = pathOf(specifier, dirname(importer.path));
    const [path = ""] = isMeant ? this.filesAt([wanted], importer) : [];
    const by = path === wanted && importer.format === "import" ? "node" : "bundler";
    return isTypeScript(path) && !isDeclaration(path) ? { found: { kind: "file", path }, by } : undefined;
  }

  private byNodeAndBundlers(named: Name, importer: Importer): Run {
    const missing: Missing[] = [];
    for (const run of this.tries(named, importer)) {
      if (run.found.kind !== "none") {
        return run;
      }
      missing.push(run.found);
    }
    return this.bySources(missing, importer) ??
      { found: missing.find((each) => each.package !== undefined) ?? NONE };
  }

  private *tries(named: Name, importer: Importer): Generator<Run> {
    for (const [at, mode] of nodeModes(named, importer).entries()) {
      const found = this.node[mode](named.specifier, importer.path);
      yield { found: found.kind === "url" ? atUrl(found.url) : found, by: at === 0 ? "node" : "bundler" };
    }
    for (const specifier of plainNames(named.specifier)) {
      const all = isPath(specifier)
        ? [this.pathByBundler(specifier, importer)]
        : this.nameByBundler({ ...named, specifier }, importer);
      for (const found of all) {
        yield { found, by: "bundler" };
      }
    }
  }

  private pathByBundler(name: string, importer: Importer): Found {
    const path = pathOf(name, dirname(importer.path));
    const { folder } = this.manifests.scopeOfFile(importer.path) ?? {};
    const found = this.bundler.atPath(path, importer);
    // A server of a bundler has the project's folder as its root.
    return found.kind !== "none" ? found
      : name.startsWith("/") && folder !== undefined ? this.bundler.atPath(pathOf(`.${name}`, folder), importer)
      : this.bundler.ofPlatform(path, importer) ?? found;
  }

  private *nameByBundler({ specifier, syntax, mode }: Name, importer: Importer): Generator<Found> {
    const { path } = importer;
    if ((mode ?? syntax) !== "require") {
      yield this.importAsRequire.require(specifier, path);
    }
    yield this.node.require(specifier, path);
    yield this.anyCondition.import(specifier, path);
    const { name, rest = "" } = packageOf(specifier) ?? {};
    if (name !== undefined) {
      yield this.inPackage(this.folderOf(name, path), rest, importer);
      // The types of a package that is compiled away, as one of types alone is.
      const types = this.packages.required(typesOf(name), dirname(path));
      yield types === undefined ? NONE : this.bundler.inPackage(types, rest, importer);
    }
  }

  private inPackage(folder: string | undefined, rest: string, importer: Importer): Found {
    const found = folder === undefined ? NONE : this.anyCondition.ofPackage(folder, rest, "import");
    const isOther = folder !== undefined && found.kind === "none" && !this.manifests.of(folder)?.exports;
    const other = isOther ? this.bundler.inPackage(folder, rest, importer) : NONE;
    return other.kind === "none" ? found : other;
  }

  /** The sources of files that are to be compiled, and aren't there yet. */
  private bySources(missing: Missing[], importer: Importer): Run | undefined {
    for (const wanted of new Set(missing.flatMap((each) => this.wanted(each)))) {
      const source = { ...importer, isTypeScript: true };
      const [compiled] = this.filesAt(this.names.sourcesOf(wanted), source);
      const path = compiled ?? this.filesAt(this.likelySources(wanted, ["src", ""], true), source)[0];
      if (path !== undefined) {
        return { found: { kind: "file", path }, by: compiled ? "tsconfig" : "bundler" };
      }
    }
    return undefined;
  }

  /** The path at which a file isn't, without links. */
  private wanted({ wanted = "", package: folder }: Missing): string[] {
    const isIn = folder !== undefined && wanted.startsWith(`${folder}/`);
    const path = isIn ? this.files.at(folder).path + wanted.slice(folder.length) : wanted;
    return path === "" || path.includes("/node_modules/") ? [] : [path];
  }
}

/**
 * Whether node looks for an import or a `require`. A file with the syntax of ES modules that node
 * wouldn't take for one is compiled or bundled before it runs: what isn't found as an import is
 * looked for as a `require`.
 */
function nodeModes({ syntax, mode }: Name, { isTypeScript: isSource, isScript, format }: Importer): Mode[] {
  return mode || syntax === "require" ? [mode ?? "require"]
    : format === "import" || (syntax === "dynamic" && isScript) ? ["import"]
    : syntax === "import" && isSource && format === "require" ? ["require"] : ["import", "require"];
}

function byScheme(specifier: string): Run | undefined {
  const scheme = schemeOf(specifier);
  return scheme === undefined || scheme === "file" ? undefined
    : { found: scheme !== "node" ? atUrl(specifier) : isBuiltin(specifier) ? { kind: "builtin" } : NONE };
}

function atUrl(url: string): Target {
  return { kind: (["data", "npm", "jsr"] as const).find((each) => each === schemeOf(url)) ?? "url" };
}
