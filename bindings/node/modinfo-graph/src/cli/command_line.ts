/** What the commands share: their words, their output, and how they end. */

import { type ParseArgsConfig, parseArgs } from "node:util";

import { GlobFault } from "../files/globs.js";
import { PACKAGE, programName, readOwnFile } from "../files/program.js";
import { EntryFault } from "../graph/entry_points.js";
import { readJobs as processors } from "../runtime/call_options.js";
import { printable, printableLines, systemMessage } from "../runtime/faults.js";
import { PROGRAM_HELP } from "./options.js";

const MOST_JOBS = 9999;

export class UsageFault extends Error {}

export type ValuesOf<Options> = {
  [Name in keyof Options]?: Options[Name] extends { type: "boolean" } ? boolean
    : Options[Name] extends { multiple: true } ? string[] : string;
};

/** `choices` are words of options that need no value with one, after `=`; `main` returns the status. */
interface Program<V> extends Required<Pick<ParseArgsConfig, "options">> {
  name: string;
  help: string;
  choices?: string[];
  main: (words: Words<V>) => Promise<number>;
}

export type Words<V> = { values: V, positionals: string[] };

/**
 * Runs a program with the words that node was started with. Status 0; 1 where something can't be
 * read or written, with a line on the error output; 2 for a usage error.
 */
export async function runProgram<V extends { help?: boolean, version?: boolean }>(program: Program<V>) {
  const { name, help, main } = program;
  // A write that fails rejects its caller's promise; a message that can't be printed is lost.
  process.stdout.on("error", () => {});
  process.stderr.on("error", () => {});
  try {
    const words = readWords(program);
    if (words.values.help) {
      await writeOutput(help + PROGRAM_HELP.replace("PACKAGE", PACKAGE));
    } else if (words.values.version) {
      const { version } = JSON.parse(readOwnFile(new URL("../../package.json", import.meta.url)));
      await writeOutput(`${name} ${version} (${printable(programName())})\n`);
    } else {
      process.exitCode = await main(words);
    }
  } catch (error) {
    if (!(error instanceof OutputFault && error.isClosed)) {
      const isOfWord = error instanceof EntryFault || error instanceof GlobFault;
      const { message } = error as Error;
      process.stderr.write(`${name}: ${isOfWord ? printable(message) : printableLines(message)}\n`);
      process.exitCode = isOfWord || error instanceof UsageFault ? 2 : 1;
    }
    // There may be processes that have something to do.
    process.exit();
  }
}

function readWords<V>({ help, options, choices = [] }: Program<V>): Words<V> {
  const words = process.argv.slice(2);
  const end = words.includes("--") ? words.indexOf("--") : words.length;
  const isChoice = (word: string, at: number) => at < end && choices.includes(word);
  const chosen = Object.fromEntries(words.filter(isChoice).map((word) => word.slice(2).split("=")));
  const args = words.map((word, at) => (isChoice(word, at) ? word.replace(/=.*/s, "") : word));
  try {
    const { values, positionals } = parseArgs({ args, options, allowPositionals: true });
    return { values: { ...values, ...chosen } as V, positionals };
  } catch (error) {
    throw new UsageFault(`${(error as Error).message.replace(/\. To specify.*$/s, "")}\n${usageOf(help)}`);
  }
}

export const usageOf = (help: string): string => help.slice(0, help.indexOf("\n\n"));

/** How many processes parse at most: one for each processor; where the word is a smaller number, as many. */
export function readJobs(word: string | undefined): number {
  const most = word === undefined ? MOST_JOBS : Number(/^[1-9]\d{0,3}$/.exec(word)?.[0]);
  if (Number.isNaN(most)) {
    throw new UsageFault(`--jobs must be a number from 1 to ${MOST_JOBS}`);
  }
  return Math.min(most, processors());
}

/** `isClosed` is whether the reader of the output has ended, as `head` does. */
export class OutputFault extends Error {
  constructor(message: string, readonly isClosed: boolean) {
    super(message);
  }
}

const PIECE = 1 << 16;

/** Lines, of which those that come in one turn are written at once. */
export class OutputLines {
  #waiting = "";
  #written: Promise<void> = Promise.resolve();
  #hasFailed = false;

  /** Takes a line with its end. What it returns has to be waited for; rejected with an `OutputFault`. */
  write(line: string): Promise<void> | undefined {
    if (this.#waiting === "") {
      setImmediate(() => this.#flush());
    }
    this.#waiting += line;
    return this.#waiting.length < PIECE && !this.#hasFailed ? undefined : this.end();
  }

  /** @returns once all lines are written; rejected with an `OutputFault` */
  end(): Promise<void> {
    this.#flush();
    return this.#written;
  }

  #flush() {
    const text = this.#waiting;
    this.#waiting = "";
    if (text !== "" && !this.#hasFailed) {
      this.#written = Promise.all([this.#written, writeOutput(text)]).then(() => {});
      this.#written.catch(() => (this.#hasFailed = true));
    }
  }
}

export function writeOutput(text: string): Promise<void> {
  return new Promise((resolve, reject) => {
    process.stdout.write(text, (error?: NodeJS.ErrnoException | null) => {
      const message = error ? `the standard output: ${systemMessage(error)}` : "";
      return error ? reject(new OutputFault(message, error.code === "EPIPE")) : resolve();
    });
  });
}
