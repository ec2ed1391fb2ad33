/**
 * Options in the member `modinfo` of the current folder's package.json. Others may have written it: it can't
 * name files outside of the folder, and has no options that write a file or run a program.
 */

import { resolve as absolute, sep } from "node:path";

import { MAX_CONFIGURATION, readRegularFile } from "../files/regular_files.js";
import { realPath } from "../files/urls.js";
import { unlessThrown } from "../runtime/faults.js";
import { UsageFault, type Words } from "./command_line.js";
import { PROJECT_OPTIONS } from "./options.js";

type Test = (value: unknown) => boolean;
const isText: Test = (value) => typeof value === "string";
const isTexts: Test = (value) => Array.isArray(value) && value.every(isText);

/** By the kinds of options. */
const TESTS: Record<string, Test> = {
  text: isText, texts: isTexts, flag: (value) => typeof value === "boolean",
  runs: (value) => typeof value === "boolean" || value === "runs",
  known: (value) => typeof value === "object" && value !== null && Object.values(value).every(isTexts),
};

const FILES = ["paths", "entry", "tsconfig"];
/** The questions, which count only where the words have neither one nor an entry or a path. */
const QUESTIONS = ["cycles", "missing", "unreached", "packages", "forbid"];
/** `known` has the findings that aren't reported, by their questions */
type ProjectOptions = { known?: Record<string, string[]>, paths?: string[] };

/**
 * Adds the options of package.json to words, which go before them.
 * @param isAsked whether the words have a question, an entry or a path
 * @throws {UsageFault} an option isn't known, has another value, or names a file outside of the folder
 */
export function withProjectOptions<V>(
  { values, positionals }: Words<V>, isAsked: boolean,
): Words<V> & Required<Pick<ProjectOptions, "known">> {
  const { known = {}, paths = [], ...options }: ProjectOptions =
    Object.fromEntries(Object.entries(readMember()).map(([name, value]) => [name, valueOf(name, value)]));
  const counting = Object.entries(options).filter(([name, value]) => {
    return value !== false && !(isAsked && QUESTIONS.includes(name));
  });
  return {
    values: { ...Object.fromEntries(counting), ...values },
    positionals: positionals.length > 0 ? positionals : paths, known,
  };
}

function readMember(): object {
  // Where there is no package.json, or it is no JSON, the resolution of names warns of that.
  const text = unlessThrown(() => String(readRegularFile("package.json", MAX_CONFIGURATION))) ?? "";
  const modinfo = unlessThrown(() => JSON.parse(text).modinfo);
  return typeof modinfo === "object" ? modinfo ?? {} : {};
}

function valueOf(name: string, value: unknown): unknown {
  if (!Object.hasOwn(PROJECT_OPTIONS, name)) {
    const all = Object.keys(PROJECT_OPTIONS).join(", ");
    throw new UsageFault(`package.json: modinfo has no option ${name}: the options are ${all}`);
  }
  const kind = PROJECT_OPTIONS[name];
  const all = isText(value) && kind === "texts" ? [value] : value;
  if (!TESTS[kind](all)) {
    throw new UsageFault(`package.json: the option ${name} of modinfo has an invalid value`);
  }
  if (FILES.includes(name)) {
    [all].flat().forEach((path) => checkInside(String(path)));
  }
  return all;
}

function checkInside(path: string) {
  const folder = realPath(".") ?? absolute(".");
  const real = realPath(absolute(path)) ?? absolute(folder, path);
  if (path === "-" || !`${real}${sep}`.startsWith(folder.endsWith(sep) ? folder : folder + sep)) {
    throw new UsageFault(`package.json: modinfo names ${path}, which is outside its folder`);
  }
}
