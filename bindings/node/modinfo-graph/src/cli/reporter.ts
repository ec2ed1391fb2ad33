/** What is printed on the error output while files are read. */

import { readRegularFile } from "../files/regular_files.js";
import { type Fault, describeFault, printable, unlessThrown } from "../runtime/faults.js";
import { UsageFault } from "./command_line.js";
import type { FileResult } from "../files/read_files.js";

const ENDINGS = ".js, .mjs, .cjs, .jsx, .ts, .mts, .cts or .tsx";
const LEFT = "warning: a link out of the given paths is not followed (--follow follows it)";
const STEP = 100;
const CLEAR = "\r\x1b[K";
/** How many characters of a line are shown before an error, and from there on. */
const AROUND = 70;

/** Prints what is wrong with files and, on a terminal, a line of progress. */
export class FileReporter {
  status = 0;
  readonly isShown;
  #drawn = -Infinity;
  #found = 0;
  #done = 0;
  #faults = 0;
  #noticed = new Set<string>();

  /** @param isShown whether the stream, where it is a terminal, gets a line of progress */
  constructor(
    private readonly name: string, isShown: boolean,
    private readonly stream: { write(text: string): unknown, isTTY?: boolean } = process.stderr,
  ) {
    this.isShown = Boolean(isShown && stream.isTTY);
  }

  find() {
    this.#found++;
  }

  /** @throws {UsageFault} there was nothing to read at the paths that were named */
  end(paths: string[]) {
    this.#clear();
    if (this.#done === 0 && !paths.includes("-")) {
      throw new UsageFault(`${paths.join(", ")}: no file to read: no name ends in ${ENDINGS}`);
    }
  }

  warn(text: string) {
    this.#print(`warning: ${printable(text)}`);
  }

  notice(notices: string[] = []) {
    for (const notice of notices.filter((each) => !this.#noticed.has(each))) {
      this.#noticed.add(notice);
      this.warn(notice);
    }
  }

  report({ path, isLeft, fault }: Omit<FileResult, "info">) {
    if (isLeft) {
      this.#print(describeFault(path, { message: LEFT }));
    }
    if (fault) {
      this.#print([describeFault(path, fault), ...excerptLines(path, fault)].join("\n"));
      this.#faults++;
      process.exitCode = this.status = 1;
    }
    this.#done++;
    if (this.isShown && performance.now() - this.#drawn >= STEP) {
      const faults = `${this.#faults} ${this.#faults === 1 ? "fault" : "faults"}`;
      this.stream.write(`${CLEAR}${this.#done} of ${this.#found} files, ${faults}`);
      this.#drawn = performance.now();
    }
  }

  #clear() {
    if (this.#drawn > 0) {
      this.stream.write(CLEAR);
      this.#drawn = -Infinity;
    }
  }

  #print(text: string) {
    this.#clear();
    this.stream.write(`${this.name}: ${text}\n`);
  }
}

/** The line of a syntax error with a mark below, after a bar: so it can't be taken for a line of the output. */
function excerptLines(path: string, { line = 0, column = 1 }: Fault): string[] {
  // A file that has changed has no such line.
  const read = () => String(readRegularFile(path)).split("\n", line)[line - 1];
  const text = line > 0 ? unlessThrown(read) : undefined;
  const characters = [...text ?? ""];
  const from = Math.max(0, column - 1 - AROUND);
  const before = printable(characters.slice(from, column - 1).join(""));
  const rest = printable(characters.slice(column - 1, column - 1 + AROUND).join("").replace(/\r$/, ""));
  return text === undefined ? [] : [`  | ${before}${rest}`, `  | ${before.replace(/[^\t]/g, " ")}^`];
}
