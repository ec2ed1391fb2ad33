/**
 * What node 20.20 loads for a name: ESM_RESOLVE
 * (https://nodejs.org/api/esm.html#resolution-algorithm-specification), and `require(X) from module at path
 * Y` (https://nodejs.org/api/modules.html#all-together). Other than node's own, these rules find regular
 * files alone, go on where a package.json is no JSON, and take no empty name and none with # or ? for a
 * package's, of which node takes a part for a path.
 */

import { isBuiltin } from "node:module";
import { dirname, join, resolve as absolute } from "node:path";
import { pathToFileURL } from "node:url";

import { pathOfUrl, urlFrom, urlOfFolder } from "../files/urls.js";
import { isFolderName, isPath, packageName } from "./names.js";
import { exportsTarget, importsTarget } from "./package_targets.js";
import type { RegularFiles } from "../files/regular_files.js";
import type { PackageFolders } from "./package_folders.js";
import type { Format as Mode, Manifest, PackageManifests } from "./package_manifests.js";

/** `outside` is there, in no folder of the project */
export type Found = { kind: "file" | "outside", path: string }
  | { kind: "builtin" }
  | { kind: "url", url: string }
  | Missing;

/** Nothing is at the path `wanted`, or in the folder `package`; with `isFinal` other folders don't count. */
export type Missing = { kind: "none", wanted?: string, package?: string, isFinal?: boolean };
const ENDINGS = [".js", ".json", ".node"];
const INDEXES = ENDINGS.map((ending) => `/index${ending}`);
const OF_FILE = ["", ...ENDINGS];
const OF_MAIN = [...OF_FILE, ...INDEXES];
/** A relative path that is the same as a URL. */
const PLAIN_PATH = /^(?:\.{1,2}\/)+(?:[\w@+~-][\w.@+~-]*\/)*[\w@+~-][\w.@+~-]*$/;
/** What a `require` looks for at a path. */
const AT_PATH = /^(?:\/|\.(?:[./]|$))/;
/** The name and the subpath of a `require` whose package may have `exports`. */
const REQUIRED = /^((?:@[^/\\%]+\/)?[^./\\%][^/\\%]*)(\/.*)?$/s;
const ENCODED_SEPARATOR = /%2f|%5c/i;
export const NONE: Missing = { kind: "none" };
const TARGETS = { exports: exportsTarget, imports: importsTarget };

export class NodeRules {
  constructor(
    private readonly files: RegularFiles, private readonly manifests: PackageManifests,
    private readonly packages: PackageFolders, private readonly conditions: Record<Mode, ReadonlySet<string>>,
  ) {}

  /** What `import "specifier"` loads, in the file of a path without links. */
  import(specifier: string, importer: string): Found {
    const folder = dirname(importer);
    if (PLAIN_PATH.test(specifier) && !folder.includes("\\")) {
      return fileAt(join(folder, specifier), this.files);
    }
    if (specifier.startsWith("#")) {
      const scope = this.manifests.scopeOf(folder);
      return scope?.imports ? this.byMember("imports", specifier, scope, "import") : NONE;
    }
    const hasPath = isPath(specifier);
    const url = urlFrom(specifier, hasPath ? pathToFileURL(importer) : undefined);
    return url ? this.atUrl(url) : hasPath ? NONE : this.named(specifier, folder, "import");
  }

  /** What `require("specifier")` loads, in the file of a path without links. */
  require(specifier: string, importer: string): Found {
    if (isBuiltin(specifier)) {
      return { kind: "builtin" };
    }
    const folder = dirname(importer);
    const scope = this.manifests.scopeOf(folder);
    if (scope?.imports !== undefined && specifier.startsWith("#")) {
      const found = this.byMember("imports", specifier, scope, "require");
      // Node takes a name of `imports` for that of a file here, also where it leads to its own module.
      return found.kind === "builtin" ? NONE : found;
    }
    if (scope?.name !== undefined && scope.exports !== undefined && `${specifier}/`.startsWith(`${scope.name}/`)) {
      return this.byMember("exports", `.${specifier.slice(scope.name.length)}`, scope, "require");
    }
    return AT_PATH.test(specifier) ? this.fileOrFolder(specifier, folder) : this.inModules(specifier, folder);
  }

  /** What an import of a package finds in the package's folder; `rest` follows the package's name. */
  ofPackage(folder: string, rest: string, mode: Mode): Found {
    const base = urlOfFolder(folder);
    return this.inPackage(folder, rest, mode, (main) => {
      return rest === "" ? this.main(base, main) : this.atUrl(new URL(`.${rest}`, base));
    });
  }

  /** @param find for a package without `exports`, by its main module */
  private inPackage(folder: string, rest: string, mode: Mode, find: (main?: string) => Found): Found {
    const entry = this.files.at(folder);
    if (this.files.isOutside(entry)) {
      return { kind: "outside", path: entry.path };
    }
    const manifest = this.manifests.of(folder);
    return manifest?.exports === undefined
      ? missing(find(manifest?.main), { package: folder })
      : this.byMember("exports", `.${rest}`, manifest, mode);
  }

  private atUrl(url: URL): Found {
    const { protocol, href } = url;
    const path = protocol === "file:" ? pathAt(url) : undefined;
    return protocol === "node:" ? isBuiltin(href) ? { kind: "builtin" } : NONE
      : protocol !== "file:" ? { kind: "url", url: href }
      : !path || path.endsWith("/") ? NONE : fileAt(absolute(path), this.files);
  }

  /** What `exports` or `imports` of a manifest have for a key. */
  private byMember(member: "exports" | "imports", key: string, manifest: Manifest, mode: Mode): Found {
    const { folder } = manifest;
    const context = { folder: urlOfFolder(folder), conditions: this.conditions[mode] };
    const target = TARGETS[member](manifest[member], key, context);
    if (target.kind === "name") {
      return this.named(target.name, folder, mode);
    }
    if ("why" in target) {
      this.manifests.notices.add(manifest.path, target.why);
    }
    return missing(target.kind === "file" ? this.atUrl(target.url) : NONE, { package: folder, isFinal: true });
  }

  /** PACKAGE_RESOLVE, from the importer's folder. */
  private named(specifier: string, folder: string, mode: Mode): Found {
    if (isBuiltin(specifier)) {
      return { kind: "builtin" };
    }
    const named = packageName(specifier);
    const scope = this.manifests.scopeOf(folder);
    if (named && scope?.exports !== undefined && scope.name === named.name) {
      return this.byMember("exports", `.${named.rest}`, scope, mode);
    }
    const own = named && this.packages.nearest(named.name, folder);
    return own === undefined ? NONE : this.ofPackage(own, named?.rest ?? "", mode);
  }

  /** The main module of a package without `exports`, for an import. */
  private main(base: URL, main: string | undefined): Found {
    const named = main === undefined ? [] : OF_MAIN.map((ending) => [`./${main}`, ending]);
    for (const [path, ending] of [...named, ...INDEXES.map((index) => [".", index])]) {
      const beginning = pathAt(new URL(path, base));
      if (beginning === undefined) {
        return NONE;
      }
      if (this.files.at(absolute(beginning + ending)).kind === "file") {
        return this.atUrl(new URL(path + ending, base));
      }
    }
    const wanted = pathAt(new URL(`./${main ?? "index.js"}`, base));
    return { kind: "none", ...(wanted && { wanted: absolute(wanted) }) };
  }

  /** LOAD_NODE_MODULES from the importer's folder, and then the folders for all projects. */
  private inModules(specifier: string, folder: string): Found {
    let first: Missing = NONE;
    for (const modules of this.packages.ofRequire(folder)) {
      const found = this.inFolder(modules, specifier);
      if (found.kind !== "none" || found.isFinal) {
        return found;
      }
      first = first.package === undefined ? found : first;
    }
    return first;
  }

  /** @param modules a folder of packages */
  private inFolder(modules: string, specifier: string): Found {
    const [, name, rest = ""] = REQUIRED.exec(specifier) ?? [];
    const folder = absolute(modules, name ?? "");
    const isIn = name !== undefined && this.files.at(folder).kind === "folder";
    const find = () => this.fileOrFolder(specifier, modules);
    return isIn ? this.inPackage(folder, rest, "require", find) : find();
  }

  /** LOAD_AS_FILE and LOAD_AS_DIRECTORY, for a name that leads from a folder. */
  private fileOrFolder(name: string, base: string): Found {
    const path = absolute(base, name);
    const found = isFolderName(name) ? NONE : this.firstFile(path, OF_FILE);
    return found.kind === "none" && this.files.at(path).kind === "folder" ? this.asFolder(path) : found;
  }

  private asFolder(folder: string): Found {
    const main = this.manifests.of(folder)?.main;
    const path = absolute(folder, main ?? "");
    const found = main ? this.firstFile(path, OF_MAIN) : NONE;
    const other = found.kind === "none" ? this.firstFile(folder, INDEXES) : found;
    return main ? missing(other, { wanted: path, isFinal: true }) : other;
  }

  private firstFile(path: string, endings: string[]): Found {
    return firstOf(endings, (ending) => fileAt(path + ending, this.files)) ?? { kind: "none", wanted: path };
  }
}

export function fileAt(path: string, files: RegularFiles): Found {
  const entry = files.at(path);
  return entry.kind === "file"
    ? { kind: files.isOutside(entry) ? "outside" : "file", path: entry.path }
    : { kind: "none", wanted: path };
}

/** @returns what is found for the first item for which there is something */
export function firstOf<Item>(items: Item[], find: (item: Item) => Found): Found | undefined {
  for (const item of items) {
    const found = find(item);
    if (found.kind !== "none") {
      return found;
    }
  }
  return undefined;
}

/** @param why is added where nothing was found */
function missing(found: Found, why: Partial<Missing>): Found {
  return found.kind === "none" ? { ...found, ...why } : found;
}

/** @returns the path of a URL of a file; nothing where it has encoded separators, or can't be decoded */
function pathAt(url: URL): string | undefined {
  return ENCODED_SEPARATOR.test(url.pathname) ? undefined : pathOfUrl(url);
}
