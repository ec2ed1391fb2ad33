/** The questions about the graph of files that options ask. Those that have findings may be asked together. */

import { resolve as absolute } from "node:path";

import { isComponent, isModule } from "../files/file_kinds.js";
import { isFile } from "../files/find_files.js";
import { canonicalUrl, realPath } from "../files/urls.js";
import { forbiddenEdges } from "../graph/module_graph.js";
import { packageUse } from "../graph/package_use.js";
import { dotText, mermaidText } from "../graph/pictures.js";
import { unreachedOf } from "../graph/unreached.js";
import { printable } from "../runtime/faults.js";
import { UsageFault, type ValuesOf, writeOutput } from "./command_line.js";
import { type GraphRun, type Run, type Values, readRun } from "./run.js";
import {
  byTypesLine, cycleLine, gapsNote, mayBeReachedLine, placeOf, reasonText, shown, stepLine,
} from "./shown.js";
import type { Cycle } from "../graph/graph.cjs";
import type { FILES_OPTIONS } from "./options.js";

export type FilesValues = Values & Omit<ValuesOf<typeof FILES_OPTIONS>, "cycles"> & { cycles?: boolean | "runs" };
type Context = GraphRun & { values: FilesValues, paths: string[] };
/** `key` is what it is known by, which doesn't change with the lines of a file; `value` is added to `member`. */
type Finding = { member: string, key: string, lines: string[], value: unknown };

/**
 * Findings make the status 1, unless they are known; `isFinding` is whether the rest does. `text` is printed in
 * place of `lines`, notes go to the error output. `data` is the rest as JSON has it, with empty lists for
 * findings.
 */
type Answer = Partial<Record<"lines" | "notes", string[]>>
  & { findings?: Finding[], text?: string, data: Record<string, unknown>, isFinding?: boolean };

/** Without the findings that are known; `keys` are those of the others */
type Found = Answer & { question: string, keys: string[] };
type Question = (context: Context) => Answer;
/** The questions with findings, of which a project may know some. */
export const CHECKS: Record<string, Question> = { cycles, missing, unreached, packages, forbid };

/** Those that are asked alone. */
const ALONE: Record<string, Question> = {
  why, dependents, dot: (context) => drawn(dotText, context), mermaid: (context) => drawn(mermaidText, context),
};

const ANSWERS: Record<string, Question> = { ...CHECKS, ...ALONE, reached, graph: whole };

/** @throws {UsageFault} one of several questions can only be asked alone */
export function questionsOf(values: Record<string, unknown>): string[] {
  const asked = Object.keys({ ...CHECKS, ...ALONE }).filter((each) => values[each] !== undefined);
  const alone = asked.find((each) => ALONE[each]);
  if (alone !== undefined && asked.length > 1) {
    const others = asked.filter((each) => each !== alone).map((each) => `--${each}`);
    throw new UsageFault(`--${alone} can't be combined with ${others.join(", ")}`);
  }
  return asked;
}

/** Prints the answers to questions without the findings that are known, by their questions. Returns the status. */
export async function answerQuestions(
  questions: string[], run: Run<FilesValues>, known: Record<string, string[]>,
): Promise<number> {
  const { values, name, paths } = run;
  checkWords(known, values.why ?? values.dependents);
  // What --why asks for is read too, so that what may reach it is found.
  const { why: target = "" } = values;
  const named = isModule(target) || isComponent(target) ? [target] : [];
  const excluded = ["unreached", "packages", "why"].some((each) => questions.includes(each));
  const options = { excluded, declarations: values.json || excluded };
  const read = await readRun({ ...run, paths: [...paths, ...named] }, options);
  const { graph, entries, status } = read;
  if (entries.some((entry) => graph.module(entry)?.fault)) {
    return 2;
  }
  const asked = questions.length > 0 ? questions : [values.json || entries.length === 0 ? "graph" : "reached"];
  const found = asked.map((each) => without(known[each] ?? [], each, ANSWERS[each]({ ...read, values, paths })));
  await writeOutput(textOf(found, values));
  const notes = found.flatMap((each) => each.notes ?? []);
  notes.forEach((note) => process.stderr.write(`${name}: ${printable(note)}\n`));
  return found.some(({ isFinding, keys }) => isFinding || keys.length > 0) ? 1 : status;
}

/** @throws {UsageFault} findings are known of another question, or no file is there that is asked for */
function checkWords(known: Record<string, string[]>, path: string | undefined) {
  const other = Object.keys(known).find((each) => !Object.hasOwn(CHECKS, each));
  if (other !== undefined) {
    const all = Object.keys(CHECKS).join(", ");
    throw new UsageFault(`package.json: known of modinfo has ${other}: the questions are ${all}`);
  }
  if (path !== undefined && !isFile(path)) {
    throw new UsageFault(`${printable(path)}: no such file`);
  }
}

function without(
  known: string[], question: string, { findings = [], lines = [], notes = [], data, ...rest }: Answer,
): Found {
  const others = findings.filter(({ key }) => !known.includes(key));
  others.forEach(({ member, value }) => (data[member] as unknown[]).push(value));
  const hidden = findings.length - others.length;
  const gone = known.filter((key) => !findings.some((each) => each.key === key)).length;
  return {
    ...rest, question, keys: [...new Set(others.map(({ key }) => key))], data,
    lines: [...others.flatMap((each) => each.lines), ...lines],
    notes: [
      ...notes,
      ...(hidden > 0 ? [`--${question}: known findings: ${hidden}`] : []),
      ...(gone > 0 ? [`--${question}: known findings that are gone: ${gone}`] : []),
    ],
  };
}

function textOf(found: Found[], { json, known, null: isNull }: FilesValues): string {
  if (known || json) {
    const keys = Object.fromEntries(found.map((each) => [each.question, each.keys]));
    return `${jsonOf(known ? keys : Object.assign({}, ...found.map(({ data }) => data)))}\n`;
  }
  const [{ text, lines = [] }] = found;
  const all = found.length === 1 ? lines : found.flatMap(({ question, keys, lines: own = [] }) => {
    return [`${question}: ${keys.length}`, ...own.map((line) => `  ${line}`)];
  });
  return text ?? all.map((line) => line + (isNull ? "\0" : "\n")).join("");
}

/** JSON in which a mention has the members of its reference. */
function jsonOf(value: unknown): string {
  return JSON.stringify(value, (_, each) => {
    return each?.reference ? { ...each, reference: undefined, ...each.reference } : each;
  });
}

const finding = (member: string, key: string, line: string, value: unknown): Finding => {
  return { member, key, lines: [line], value };
};

/** The cycles. With `--cycles=runs` those aren't findings that types alone may close. */
function cycles({ graph, values: { types, cycles: choice } }: Context) {
  const { cycles: run, typeCycles } = graph.cycles();
  const isFound = (cycle: Cycle) => choice !== "runs" || !cycle.perhapsOfTypes;
  const others = run.filter((cycle) => !isFound(cycle));
  const count = run.filter(({ perhapsOfTypes }) => perhapsOfTypes).length;
  const why = "a compiler removes imports of TypeScript whose names are types";
  return {
    findings: run.filter(isFound).map((cycle) => {
      return finding("cycles", cycle.modules.map(shown).sort().join(" "), cycleLine(cycle), cycle);
    }),
    lines: [
      ...others.map((cycle) => cycleLine(cycle, "perhaps by types alone: ")),
      ...typeCycles.map((cycle) => cycleLine(cycle, "by types alone: ")),
    ],
    notes: count === 0 ? [] : [`${count} of ${run.length} cycles may be of types alone: ${why}`],
    data: { cycles: [], ...(choice === "runs" && { perhapsByTypes: others }), ...(types && { typeCycles }) },
  };
}

function missing({ graph }: Context) {
  const others = graph.foundByOthers();
  const note = `node itself finds ${others.length} of the names in JavaScript nowhere (--json has foundByOthers)`;
  return {
    findings: graph.missing().map((mention) => {
      const { module, reference: { specifier, resolved } } = mention;
      const why = resolved.class === "package" ? `the package ${resolved.package} isn't installed` : "not found";
      const line = printable(`${placeOf(mention)}: ${specifier}: ${why}`);
      return finding("missing", `${shown(module)}: ${specifier}`, line, mention);
    }),
    notes: others.length > 0 ? [note] : [],
    data: { missing: [], foundByOthers: others },
  };
}

function unreached(context: Context) {
  const { graph, entries, named } = context;
  const found = unreachedOf(graph, named, context);
  const notes = gapsNote(graph.gaps(graph.reached(entries)));
  return {
    findings: found.unreached.map((key) => finding("unreached", shown(key), shown(key), key)),
    lines: [...found.mayBeReached.map(mayBeReachedLine), ...found.byTypes.map(byTypesLine)],
    notes, isFinding: notes.length > 0, data: { entries, ...found, unreached: [] },
  };
}

function packages({ graph, pages, paths }: Context) {
  const folders = paths.flatMap((path) => realPath(absolute(path)) ?? []);
  const { unlisted, unused, mayBeUsed } = packageUse(graph, { pages, paths: folders });
  return {
    findings: [
      ...unlisted.map((each) => {
        const { package: name, manifest, by } = each;
        const where = manifest ? `not listed in ${shown(manifest)}` : "no package.json found";
        return {
          member: "unlisted", key: manifest ? `${shown(manifest)}: ${name}` : name,
          lines: by.map((mention) => printable(`${placeOf(mention)}: ${name}: ${where}`)), value: each,
        };
      }),
      ...unused.map((each) => {
        const key = `${shown(each.manifest)}: ${each.package}`;
        return finding("unused", key, printable(`${key}: in ${each.list}, and no module imports it`), each);
      }),
    ],
    lines: mayBeUsed.map(({ package: name, manifest, reason }) => {
      const why = `${reasonText(reason)} at ${shown(reason.file)}`;
      return printable(`${shown(manifest)}: ${name}: may be used: ${why}`);
    }),
    data: { unlisted: [], unused: [], mayBeUsed },
  };
}

function forbid({ graph, entries, values }: Context) {
  return {
    findings: forbiddenEdges(graph, entries, values.forbid ?? []).map(({ rule, way, mention }) => {
      const { module, reference } = mention;
      const why = `${reference.specifier}: forbidden by ${rule}: ${way.map(shown).join(" -> ")}`;
      const key = way.slice(-2).map(shown).join(" -> ");
      const value = { rule, module, ...reference, way };
      return finding("forbidden", key, printable(`${placeOf(mention)}: ${why}`), value);
    }),
    data: { forbidden: [] },
  };
}

function reached({ graph, entries }: Context) {
  const keys = graph.reached(entries);
  const files = graph.listed.map(({ specifier }) => specifier).filter((key) => keys.has(key));
  const notes = gapsNote(graph.gaps(keys));
  return { lines: files.map(shown), data: { entries, reached: files }, notes, isFinding: notes.length > 0 };
}

/** A chain to a file, or what may lead to it, with a chain to that. */
function why(context: Context) {
  const { graph, entries, values } = context;
  const key = canonicalUrl(String(values.why));
  const chainTo = graph.chains(entries);
  const steps = chainTo(key);
  if (steps.length > 0) {
    return { lines: steps.map(stepLine), data: { why: steps } };
  }
  const keys = graph.modules.map(({ specifier }) => specifier);
  const { mayBeReached, byTypes } = unreachedOf(graph, keys, context);
  const reasons = new Map(mayBeReached.map((each) => [each.module, each]));
  const ways: typeof mayBeReached = [];
  for (let at = reasons.get(key); at && !ways.includes(at); at = reasons.get(at.reason.module)) {
    ways.unshift(at);
  }
  const before = ways.length > 0 ? chainTo(ways[0].reason.module) : [];
  const types = byTypes.filter(({ module }) => module === key);
  const isAnswered = ways.length + types.length > 0;
  return {
    lines: [...before.map(stepLine), ...ways.map(mayBeReachedLine), ...types.map(byTypesLine)],
    data: {
      why: before, ...(ways.length > 0 && { mayBeReached: ways }), ...(types.length > 0 && { byTypes: types }),
    },
    isFinding: !isAnswered, notes: isAnswered ? [] : [`no entry reaches ${values.why}`],
  };
}

function dependents({ graph, values }: Context) {
  const files = graph.dependents(canonicalUrl(String(values.dependents)));
  return { lines: files.map(shown), data: { dependents: files } };
}

function drawn(draw: typeof dotText, context: Context) {
  const keys = new Set(context.graph.listed.map(({ specifier }) => specifier));
  const edges = context.graph.edges().filter(({ from, to }) => keys.has(from) && keys.has(to));
  return { text: draw([...keys], edges, shown), ...whole(context) };
}

function whole({ graph, entries }: Context) {
  return { data: { ...(entries.length > 0 && { entries }), modules: graph.listed } };
}
