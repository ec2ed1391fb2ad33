#!/usr/bin/env node
/**
 * From files and folders to what each depends on, and to the graph of them.
 *
 *     modinfo-files src
 *     modinfo-files --entry src/main.ts
 */

import { resolve as absolute } from "node:path";
import { pathToFileURL } from "node:url";

import { checkProgram, modinfoPath } from "../files/program.js";
import { Resolver } from "../graph/resolver.js";
import { OutputLines, UsageFault, type Words, runProgram, usageOf } from "./command_line.js";
import { CHECKS, type FilesValues, answerQuestions, questionsOf } from "./graph_questions.js";
import { FILES_HELP, FILES_OPTIONS, RUN_OPTIONS } from "./options.js";
import { withProjectOptions } from "./project_options.js";
import { type Run, resolverOptions, runLines } from "./run.js";
import type { FileResult } from "../files/read_files.js";
import type { FileReporter } from "./reporter.js";

type FilesWords = Words<FilesValues>;
const NAME = "modinfo-files";

async function main(words: FilesWords): Promise<number> {
  if (isOfLines(words)) {
    return printLines(await runOf(words));
  }
  const named = [...words.positionals, ...words.values.entry ?? []];
  const isAsked = named.length + questionsOf(words.values).length > 0;
  const { known, ...all } = withProjectOptions(words, isAsked);
  const questions = questionsOf(all.values);
  checkWords(all, questions);
  return answerQuestions(questions, await runOf(all), known);
}

/** Whether words ask for the files' lines, and for no graph. */
function isOfLines({ values, positionals }: FilesWords): boolean {
  const isOfGraph = values.entry || values.json || values.known || questionsOf(values).length > 0;
  if (values.resolve && isOfGraph) {
    throw new UsageFault("--resolve is for the lines of files; for a graph, use --json without --resolve");
  }
  return positionals.length > 0 && !isOfGraph;
}

async function runOf({ values, positionals: paths }: FilesWords): Promise<Run<FilesValues>> {
  const program = modinfoPath();
  await checkProgram(program);
  return { name: NAME, values, paths, program };
}

async function printLines(run: Run<FilesValues>): Promise<number> {
  const resolver = run.values.resolve ? new Resolver(resolverOptions(run.values)) : undefined;
  const output = new OutputLines();
  const status = await runLines(run, (result, reporter) => output.write(lineOf(result, reporter, resolver)));
  await output.end();
  return status;
}

function checkWords({ values, positionals: paths }: FilesWords, questions: string[]) {
  const { entry: entries = [], json, known } = values;
  const asked = (...names: string[]) => questions.find((each) => names.includes(each));
  const [needy, broad] = [asked("unreached", "why"), asked("unreached", "packages")];
  const picture = asked("dot", "mermaid");
  const isOther = known && !questions.every((each) => Object.hasOwn(CHECKS, each));
  const why = paths.length + entries.length === 0 ? usageOf(FILES_HELP)
    : needy && entries.length === 0 ? `--${needy} needs --entry`
    : broad && paths.length === 0 ? `--${broad} needs a PATH`
    : picture && json ? `--json and --${picture} are two forms of the graph: ask for one`
    : isOther ? "--known is for --cycles, --missing, --unreached, --packages and --forbid" : undefined;
  if (why !== undefined) {
    throw new UsageFault(why);
  }
}

function lineOf({ path, info, fault }: FileResult, reporter: FileReporter, resolver?: Resolver): string {
  const specifier = pathToFileURL(path);
  if (info === undefined) {
    return `${JSON.stringify({ specifier, ...fault })}\n`;
  }
  let json = String(info);
  if (resolver) {
    const value = JSON.parse(json);
    resolver.resolveInfo(value, absolute(path));
    reporter.notice(resolver.takeNotices());
    json = JSON.stringify(value);
  }
  return `{"specifier":${JSON.stringify(specifier)},"info":${json}}\n`;
}

const options = { ...RUN_OPTIONS, ...FILES_OPTIONS };
await runProgram({ name: NAME, help: FILES_HELP, options, choices: ["--cycles=runs"], main });
