/** The members of package.json and of configurations, what is wrong with them, and the projects of folders. */

import { basename, dirname, extname, join } from "node:path";

import { inherited, memoized, nearest } from "../files/by_folder.js";
import { PROJECT_FILES } from "./conventions.js";
import { isObject } from "./package_targets.js";
import type { RegularFiles } from "../files/regular_files.js";

/** What is wrong with files: each once, and of each file the first ones. */
export class Notices {
  private fresh: string[] = [];
  private readonly ofPath = memoized((_path: string) => new Set<string>());

  constructor(private readonly mostOfFile: number = Infinity) {}

  add(path: string, why: string) {
    const known = this.ofPath(path);
    if (!known.has(why) && known.size < this.mostOfFile) {
      known.add(why);
      this.fresh.push(`${path}: ${why}`);
    }
  }

  /** @returns those since the last call */
  take(): string[] {
    return this.fresh.splice(0);
  }
}

/** Whether there is something at a path that may be opened. */
export function isThere(path: string, files: RegularFiles): boolean {
  return ["file", "other"].includes(files.at(path).kind);
}

/** @returns the path of the first of some names that is there in a folder */
export function firstIn(folder: string, names: string[], files: RegularFiles): string | undefined {
  return names.map((name) => join(folder, name)).find((path) => isThere(path, files));
}

/** @returns the members of an object; none where it can't be read, which is noted */
export function membersAt(
  path: string, parse: (text: string) => unknown, files: RegularFiles, notices: Notices,
): Record<string, unknown> {
  try {
    const members = parse(files.read(path));
    if (isObject(members)) {
      return members;
    }
    notices.add(path, "ignored: not an object");
  } catch (error) {
    notices.add(path, `ignored: ${(error as Error).message}`);
  }
  return {};
}

/** A text, or a comment. */
const COMMENT = /("(?:[^"\\]|\\.)*"?)|\/\/[^\n\r]*|\/\*.*?(?:\*\/|$)/gs;
/** A text, or a comma after the last item. */
const TRAILING_COMMA = /("(?:[^"\\]|\\.)*"?)|,(?=\s*[}\]])/gs;

/** Reads JSON, with comments and with commas after the last item. @throws {SyntaxError} */
export function parseWithComments(text: string): unknown {
  const without = (json: string, pattern: RegExp) => json.replace(pattern, (_, kept) => kept ?? " ");
  return JSON.parse(without(without(text, COMMENT), TRAILING_COMMA));
}

export type Format = "import" | "require";

/** The package.json at a path, with all its members; neither `exports` nor `imports` is null. */
export type Manifest = Partial<Record<"name" | "main" | "type", string>> & Record<"folder" | "path", string>
  & { exports?: unknown, imports?: unknown, members: Record<string, unknown> };

const MAX_NOTICES = 10;
/** The members of a package.json that list packages, of which one may be unused. */
export const LISTS = ["dependencies", "devDependencies", "peerDependencies"];

/** The packages in some lists of a package.json. */
export function packagesIn({ members = {} }: Partial<Manifest> = {}, lists: string[]): string[] {
  const found = lists.map((list) => (Object.hasOwn(members, list) ? members[list] : undefined));
  return found.filter(isObject).flatMap((each) => Object.keys(each));
}

const BY_EXTENSION: Record<string, Format> = {
  ".mjs": "import", ".mts": "import", ".cjs": "require", ".cts": "require",
};
const BY_TYPE = new Map<string | undefined, Format>([["module", "import"], ["commonjs", "require"]]);

/** Takes absolute and normal paths. */
export class PackageManifests {
  /** Of each manifest the first few. */
  readonly notices = new Notices(MAX_NOTICES);

  /** @returns nothing where a folder has no package.json; a manifest without members where that can't be read */
  readonly of = memoized((folder: string): Manifest | undefined => {
    const path = firstIn(folder, ["package.json"], this.files);
    if (path === undefined) {
      return undefined;
    }
    const members = membersAt(path, JSON.parse, this.files, this.notices);
    const own = (name: string) => (Object.hasOwn(members, name) ? members[name] ?? undefined : undefined);
    const [name, main, type] = ["name", "main", "type"].map(own)
      .map((each) => (typeof each === "string" ? each : undefined));
    return { folder, path, members, name, main, type, exports: own("exports"), imports: own("imports") };
  });

  /** The manifest of the package that a folder is in: the nearest one, up to a `node_modules`. */
  readonly scopeOf = nearest((folder) => (basename(folder) === "node_modules" ? null : this.of(folder)));

  constructor(private readonly files: RegularFiles) {}

  /** The manifest of the package that a file is in. */
  readonly scopeOfFile = (path: string): Manifest | undefined => this.scopeOf(dirname(path));

  /** The module format that node takes a file for; nothing where neither its name nor its package decides it. */
  formatOf(path: string): Format | undefined {
    return BY_EXTENSION[extname(path)] ?? BY_TYPE.get(this.scopeOfFile(path)?.type);
  }
}

/** What the folder of a repository has, which is never passed. */
const REPOSITORY = [".git", ".hg"];
const PACKAGES = ["node_modules"];
/** The folder of a project, and whether no more of it may be above that folder */
export type Project = { project?: string, isWhole: boolean };

/**
 * The folder of the repository that a folder is in; else the uppermost one with a package.json or a
 * configuration; else the nearest one with packages, above which more of the project may be.
 */
export function projectsOf(files: RegularFiles): (folder: string) => Project {
  return inherited<Project>((project, above = { isWhole: false }) => {
    const has = (names: string[]) => names.some((name) => files.at(join(project, name)).kind !== "none");
    if (has(REPOSITORY)) {
      return { project, isWhole: true };
    }
    const isMarked = !above.isWhole && has(PROJECT_FILES);
    return isMarked || (!above.isWhole && has(PACKAGES)) ? { project, isWhole: isMarked } : above;
  });
}
