#!/usr/bin/env node
/**
 * Makes a page that shows the dependencies of files and folders.
 *
 *     modinfo-report --entry src/main.ts src
 */

import { basename } from "node:path";

import {
  UsageFault, type ValuesOf, type Words, readJobs, runProgram, usageOf,
} from "modinfo-graph/internal/cli/command_line.js";
import { RUN_OPTIONS } from "modinfo-graph/internal/cli/options.js";
import { withProjectOptions } from "modinfo-graph/internal/cli/project_options.js";
import { type GraphRun, type Run, type Values, readRun } from "modinfo-graph/internal/cli/run.js";
import { gapsNote } from "modinfo-graph/internal/cli/shown.js";
import { checkProgram, modinfoPath } from "modinfo-graph/internal/files/program.js";
import { dotText, isDot } from "modinfo-graph/internal/graph/pictures.js";
import { isReport } from "modinfo-graph/internal/graph/scripts.js";
import { unledOf, unreachedOf } from "modinfo-graph/internal/graph/unreached.js";
import { printable, printableLines } from "modinfo-graph/internal/runtime/faults.js";
import { type Report, indexOf, partsOf } from "./data.js";
import { type Library, readLibraries } from "./libraries.js";
import { type Edge, Links, edgesOf } from "./links.js";
import { listsOf, shownCycles, shownUnreached } from "./lists.js";
import { REPORT_HELP, REPORT_OPTIONS } from "./options.js";
import { outsideOf } from "./outside.js";
import { pageOf } from "./page.js";
import { type Module, Project } from "./project.js";
import { isReplaceable, placeOf, replaceFile } from "./replace_file.js";
import type { ReadFile } from "modinfo-graph/internal/graph/read_graph.js";

/** The modules of a report, and the folder around them */
type Listed = { folder: string, modules: Module[] };

const NAME = "modinfo-report";

type ReportValues = Values & ValuesOf<typeof REPORT_OPTIONS>;

async function main(words: Words<ReportValues>): Promise<number> {
  const { values, positionals } = withProjectOptions(words, true);
  if (positionals.length === 0) {
    throw new UsageFault(usageOf(REPORT_HELP));
  }
  const { output = "report.html", dot } = values;
  readJobs(values.jobs);
  checkOutputs(output, dot);
  const program = modinfoPath();
  await checkProgram(program);
  const { project, read } = await readProject({ values, program, paths: positionals });
  checkInputs([output, dot], project.modules);
  const links = new Links(project.folder, project.modules);
  const edges = edgesOf(project.modules, links);
  if (dot !== undefined) {
    const numbers = [...project.modules.keys()];
    await replaceFile(dot, dotText(numbers, edges, (module) => project.modules[module].path));
  }
  const found = listsFor(project, links, edges, read);
  const libraries = readLibraries();
  await replaceFile(output, drawPage(project, links, { edges, ...found }, libraries));
  const notes = gapsNote(found.gaps);
  notes.forEach((note) => process.stderr.write(`${NAME}: ${note}\n`));
  return reportAbsent(libraries) || notes.length > 0 ? 1 : read.status;
}

function drawPage(
  { folder, modules }: Listed, links: Links, found: Omit<Report, "title" | "modules">, libraries: Library[],
): string {
  const title = printable(basename(folder) || folder);
  const parts = [...partsOf(modules, links)];
  const index = indexOf({ title, modules, ...found }, parts.map(({ start }) => start));
  return pageOf(index, parts.map((part) => part.modules), libraries);
}

/**
 * @throws {UsageFault} both outputs are the same file, or one would overwrite another file than an earlier output
 */
function checkOutputs(output: string, dot: string | undefined) {
  if (dot !== undefined && placeOf(output) === placeOf(dot)) {
    throw new UsageFault(`--output and --dot name the same file: ${printable(dot)}`);
  }
  if (!isReplaceable(output, isReport)) {
    throw new UsageFault(`${printable(output)} isn't a page of ${NAME} and would be overwritten`);
  }
  if (dot !== undefined && !isReplaceable(dot, isDot)) {
    throw new UsageFault(`${printable(dot)} isn't a graph of ${NAME} and would be overwritten`);
  }
}

/** @throws {UsageFault} an output would overwrite a module, which may be an empty file */
function checkInputs(outputs: (string | undefined)[], modules: Module[]) {
  const inputs = new Set(modules.map(({ file }) => placeOf(file)));
  const output = outputs.find((each) => each !== undefined && inputs.has(placeOf(each)));
  if (output !== undefined) {
    throw new UsageFault(`${printable(output)} is a file of PATH, which the output would overwrite`);
  }
}

async function readProject({ values, program, paths }: Omit<Run<ReportValues>, "name">) {
  const project = new Project();
  const onRead = (result: ReadFile) => project.add(result);
  const read = await readRun({ name: NAME, values, paths, program }, { excluded: true, onRead });
  const isListed = (key: string) => read.graph.module(key)?.isExcluded !== true;
  return { project: project.finish(paths, isListed), read };
}

function listsFor({ folder, modules }: Listed, links: Links, edges: Edge[], read: GraphRun) {
  const { graph, entries: keys, named } = read;
  const entries = keys.flatMap((key) => links.moduleAt(key) ?? []);
  const unreached = (keys.length > 0 ? unreachedOf : unledOf)(graph, [...new Set(named)], read);
  const lists = listsOf(modules, links, edges, {
    unreached: shownUnreached(unreached, { folder, links }),
    cycles: shownCycles(graph, (key) => links.moduleAt(key) as number),
  });
  const gaps = keys.length > 0 ? graph.gaps(graph.reached(keys)) : { missing: 0, aliases: 0, faults: 0 };
  return { entries, lists, outside: outsideOf(modules, links), gaps };
}

/** Reports the libraries that are absent, and what isn't drawn without them; returns whether one is. */
function reportAbsent(libraries: Library[]): boolean {
  const absent = libraries.filter(({ fault }) => fault !== undefined);
  for (const { draws, fault } of absent) {
    process.stderr.write(`${NAME}: no ${draws}: ${printableLines(String(fault))}\n`);
  }
  return absent.length > 0;
}

await runProgram({ name: NAME, help: REPORT_HELP, options: { ...RUN_OPTIONS, ...REPORT_OPTIONS }, main });
