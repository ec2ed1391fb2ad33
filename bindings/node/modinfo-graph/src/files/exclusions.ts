/** Which files are left out: those that globs match, and those that git ignores. */

import { execFile } from "node:child_process";
import { dirname, join, relative, resolve as absolute, sep } from "node:path";
import { promisify } from "node:util";

import { inherited } from "./by_folder.js";
import { isFolder } from "./find_files.js";
import { globMatcher } from "./globs.js";
import type { GraphOptions } from "../options.cjs";

export class GitFault extends Error {}

/** Whether a path, or a folder around it, is left out */
type IsOut = (path: string) => boolean;
/** Whether a file isn't listed, isn't read either, isn't listed by `exclude` alone, and one of the first two. */
type Exclusions = Record<"isExcluded" | "isIgnored" | "isKept" | "isLeftOut", IsOut>;
type Words = Pick<GraphOptions, "exclude" | "ignore" | "gitignore">;

/** Git decides in the repositories of the paths. @returns rejected with a `GlobFault` or a `GitFault` */
export async function exclusionsOf(words: Words, paths: string[]): Promise<Exclusions> {
  const { exclude = [], ignore = [], gitignore = false } = words;
  const folders = new Set(gitignore ? paths.map((path) => (isFolder(path) ? path : dirname(path))) : []);
  const byGit = new Set((await Promise.all([...folders].map(ignoredBelow))).flat());
  const isOfGit = withFolders((path) => byGit.has(path), byGit.size > 0);
  const [isNamed, isIgnored] = [exclude, ignore].map(pathMatcher);
  const isExcluded = (path: string) => isNamed(path) || isOfGit(path);
  return {
    isExcluded, isIgnored,
    isKept: (path) => isNamed(path) && !isOfGit(path) && !isIgnored(path),
    isLeftOut: (path) => isExcluded(path) || isIgnored(path),
  };
}

export function pathMatcher(globs: string[]): IsOut {
  const matchers = globs.map(globMatcher);
  return withFolders((path) => {
    const from = relative(process.cwd(), path).replaceAll(sep, "/");
    return matchers.some((matches) => matches(from));
  }, matchers.length > 0);
}

/** True for what is in such a folder too. `isAny` is whether any path is out. */
function withFolders(isNamed: IsOut, isAny: boolean): IsOut {
  const isOut = inherited<boolean>((path, isFolderOut) => isFolderOut || isNamed(path));
  return isAny ? (path) => isOut(absolute(path)) : () => false;
}

/** The absolute paths that git ignores in the repository of a folder, of folders of which it ignores all too. */
async function ignoredBelow(folder: string): Promise<string[]> {
  const root = (await git(folder, ["rev-parse", "--show-toplevel"])).replace(/\n$/, "");
  const words = ["ls-files", "-z", "--others", "--ignored", "--exclude-standard", "--directory"];
  const paths = (await git(root, words)).split("\0").filter((path) => path !== "");
  return paths.map((path) => join(root, path.replace(/\/$/, "")));
}

async function git(folder: string, words: string[]) {
  try {
    return (await promisify(execFile)("git", words, { cwd: folder, maxBuffer: 1 << 30 })).stdout;
  } catch (error) {
    const { stderr, message } = error as Error & { stderr?: string };
    throw new GitFault(`can't find what git ignores in ${folder}: ${stderr?.trim() || message}`);
  }
}
