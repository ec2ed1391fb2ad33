/** Reads the files of a command, each for a line or all into a graph. */

import { resolve as absolute } from "node:path";
import { Readable } from "node:stream";

import { exclusionsOf } from "../files/exclusions.js";
import { type Found, findFiles, readPaths } from "../files/find_files.js";
import { type FileResult, readFiles } from "../files/read_files.js";
import { type ProjectGraph, type ReadFile, readProject } from "../graph/read_graph.js";
import { type ValuesOf, readJobs } from "./command_line.js";
import { FileReporter } from "./reporter.js";
import type { ResolverOptions } from "../graph/resolver.js";
import type { RUN_OPTIONS } from "./options.js";

export type Values = ValuesOf<typeof RUN_OPTIONS>;
/** How many paths are looked up ahead of the files that are read. */
const AHEAD = 1_000_000;
/** The name of a command, the values of its options, and the path of `modinfo` */
export type Run<V extends Values = Values> = { name: string, values: V, paths: string[], program: string };

/** Reads the files of some paths, prints what is wrong with them, and writes each. Returns the status. */
export async function runLines(
  run: Run, write: (result: FileResult, reporter: FileReporter) => Promise<void> | undefined,
): Promise<number> {
  const { name, values, program } = run;
  const { all, follow } = values;
  const jobs = readJobs(values.jobs);
  const reporter = new FileReporter(name, !process.stdout.isTTY);
  const { paths, roots } = namedPaths(run);
  const { isLeftOut: isExcluded } = await exclusionsOf(values, roots);
  const files = findFiles(paths, { all, follow, roots, isExcluded });
  for await (const result of readFiles(ahead(files, reporter), { program, jobs })) {
    reporter.report(result);
    await (result.isLeft ? undefined : write(result, reporter));
  }
  reporter.end(run.paths);
  return reporter.status;
}

/** `status` is 1 if a file can't be read, or an entry isn't there */
export type GraphRun = ProjectGraph & { status: number };
/** Whether excluded files are read too, for what they lead to, and whether declaration files are looked for */
type Reading = { excluded: boolean, declarations?: boolean, onRead?: (result: ReadFile) => void };

export async function readRun(run: Run, { excluded, declarations, onRead }: Reading): Promise<GraphRun> {
  const { name, program, paths, values } = run;
  const { all, types, exclude, ignore, gitignore, follow: links, entry: entries = [] } = values;
  const reporter = new FileReporter(name, true);
  const read = await readProject({
    ...namedPaths(run), program, jobs: readJobs(values.jobs), entries, all, types, dynamic: !values["no-dynamic"],
    exclude, ignore, gitignore, links, excluded, resolver: { ...resolverOptions(values), declarations },
    ahead: (walked) => ahead(walked, reporter),
    onRead: (result, isExcluded) => {
      reporter.notice(result.notices);
      // What is wrong with an excluded file counts where it is reached alone.
      reporter.report(isExcluded ? { path: result.path } : result);
      onRead?.(result);
    },
  });
  read.absent.forEach((each) => reporter.warn(`${each}: entry not found`));
  reporter.end(paths);
  return { ...read, status: read.absent.length > 0 ? 1 : reporter.status };
}

export function resolverOptions({ types = false, tsconfig, conditions }: Values): ResolverOptions {
  return { types, tsconfig: tsconfig === undefined ? undefined : absolute(tsconfig), conditions };
}

/** The same files, looked up long before they are read where the progress, which counts them, is shown. */
function ahead(files: AsyncIterable<Found>, reporter: FileReporter): AsyncIterable<Found> {
  const counted = async function* () {
    for await (const file of files) {
      reporter.find();
      yield file;
    }
  };
  return reporter.isShown ? Readable.from(counted(), { highWaterMark: AHEAD }) : files;
}

function namedPaths({ paths: words, values }: Run): { paths: AsyncIterable<string>, roots: string[] } {
  const paths = async function* () {
    for (const path of words) {
      yield* path === "-" ? readPaths(process.stdin, values.null ? "\0" : "\n") : [path];
    }
  };
  return { paths: paths(), roots: words.filter((path) => path !== "-") };
}
