/**
 * The folders of packages: those in which installed ones are looked for, and those of a project, which
 * `workspaces` of a package.json or `packages` of a pnpm-workspace.yaml name, also where nothing is
 * installed.
 */

import { dirname, join, relative, resolve as absolute } from "node:path";
import { fileURLToPath } from "node:url";

import { inherited, memoized, nearest } from "../files/by_folder.js";
import { matchesName, matchesPath } from "../files/globs.js";
import { urlOfFolder } from "../files/urls.js";
import { unlessThrown } from "../runtime/faults.js";
import { isObject } from "./package_targets.js";
import type { RegularFiles } from "../files/regular_files.js";
import type { PackageManifests } from "./package_manifests.js";

const MANIFEST = "/package.json";
const PLAIN = /^(?:@[\w.~-]+\/)?[\w~-][\w.~-]*$/;
/** A folder in which a `require` doesn't look. */
const IN_ITSELF = "/node_modules/node_modules";

export class PackageFolders {
  /** Each `node_modules` that is in a folder or above it, the nearest first. */
  private readonly above = inherited<string[]>((folder, above = []) => {
    const own = join(folder, "node_modules");
    return this.isFolder(own) ? [own, ...above] : above;
  });

  /** The folders of packages in which a `require` looks, of those that are there. */
  readonly ofRequire = memoized((folder: string) => [
    ...this.above(folder).filter((each) => !each.endsWith(IN_ITSELF)),
    ...this.globalFolders.filter((each) => this.isFolder(each)),
  ]);

  /** @param globalFolders those in which a `require` looks last */
  constructor(private readonly files: RegularFiles, private readonly globalFolders: string[]) {}

  required(name: string, folder: string): string | undefined {
    return this.ofRequire(folder).map((each) => absolute(each, name)).find((each) => this.isFolder(each));
  }

  /** A package's folder by the rules of an import: the nearest one. */
  nearest(name: string, folder: string): string | undefined {
    return PLAIN.test(name)
      ? this.above(folder).map((each) => `${each}/${name}`).find((each) => this.isFolder(each))
      : this.nearestByUrl(name, folder);
  }

  private nearestByUrl(name: string, folder: string): string | undefined {
    const up = name.startsWith("@") ? "../../../../" : "../../../";
    let url = new URL(`./node_modules/${name}${MANIFEST}`, urlOfFolder(folder));
    for (let path = fileURLToPath(url), last = ""; path.length !== last.length;) {
      const own = absolute(path.slice(0, -MANIFEST.length));
      if (this.isFolder(own)) {
        return own;
      }
      last = path;
      url = new URL(`${up}node_modules/${name}${MANIFEST}`, url);
      path = fileURLToPath(url);
    }
    return undefined;
  }

  private isFolder(path: string) {
    return this.files.at(path).kind === "folder";
  }
}

const PNPM = "pnpm-workspace.yaml";
/** The list of packages in YAML, and an item of it. */
const PACKAGES = /^packages:[^\S\n]*\n((?:[^\S\n]*(?:-.*|#.*)?\r?\n)*)/m;
const ITEM = /^[^\S\n]*-[^\S\n]*["']?([^"'\n#]+)/gm;

export class Workspaces {
  constructor(private readonly files: RegularFiles, private readonly manifests: PackageManifests) {}

  /** The folder of the package of a file's project that has a name. */
  folderOf(name: string, importer: string): string | undefined {
    return importer.includes("/node_modules/") ? undefined : this.packages(dirname(importer))?.get(name);
  }

  private readonly packages = nearest((folder) => {
    const patterns = this.patternsOf(folder);
    const named = this.foldersOf(folder, patterns).map((path) => [this.manifests.of(path)?.name, path] as const);
    return patterns.length > 0 ? new Map(named) : undefined;
  });

  private patternsOf(folder: string): string[] {
    const workspaces = this.manifests.of(folder)?.members.workspaces;
    const patterns = isObject(workspaces) ? workspaces.packages : workspaces;
    const own = Array.isArray(patterns) ? patterns.filter((each) => typeof each === "string") : [];
    const text = unlessThrown(() => this.files.read(join(folder, PNPM))) ?? "";
    const [, list = ""] = PACKAGES.exec(`${text}\n`) ?? [];
    return own.length > 0 ? own : [...list.matchAll(ITEM)].map(([, pattern]) => pattern.trim());
  }

  /** The folders of patterns, without those of patterns that begin with `!`. */
  private foldersOf(folder: string, patterns: string[]): string[] {
    const left = patterns.filter((each) => each.startsWith("!")).map((each) => partsOf(each.slice(1)));
    return [...new Set(patterns)].filter((each) => !each.startsWith("!"))
      .flatMap((pattern) => this.folders(folder, partsOf(pattern)))
      .filter((path) => !left.some((parts) => matchesFolder(parts, relative(folder, path))));
  }

  private folders(folder: string, parts: string[]): string[] {
    const [part, ...rest] = parts;
    if (part === undefined || part === "**") {
      return (part ? this.below(folder) : [folder]).filter((path) => matchesFolder(parts, relative(folder, path)));
    }
    const names = /[*?]/.test(part) ? this.namesIn(folder).filter((name) => matchesName(part, name)) : [part];
    return names.flatMap((name) => this.folders(join(folder, name), rest));
  }

  /** @returns the folder and those below it, without installed packages */
  private below(folder: string): string[] {
    const all = [folder];
    // What is added meanwhile follows.
    for (const each of all) {
      this.namesIn(each).forEach((name) => all.push(join(each, name)));
    }
    return all;
  }

  private namesIn(folder: string) {
    return this.files.namesIn(folder, "folder").filter((name) => name !== "node_modules" && !name.startsWith("."));
  }
}

const partsOf = (pattern: string) => pattern.split("/").filter((part) => part !== "" && part !== ".");

/** Whether a file in a folder has the path that the parts of a pattern and a name make. */
function matchesFolder(parts: string[], path: string): boolean {
  return matchesPath([...parts, "name"].join("/"), join(path, "name"));
}
