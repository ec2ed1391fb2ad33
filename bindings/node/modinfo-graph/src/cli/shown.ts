/** How answers show files, references and reasons. */

import { realpathSync } from "node:fs";
import { relative } from "node:path";
import { fileURLToPath } from "node:url";

import { printable } from "../runtime/faults.js";
import type { Cycle, Mention, Step, Unreached } from "../graph/graph.cjs";

const folder = realpathSync(process.cwd());

/** The path of a file's URL: from the current folder, where it is below, else absolute; the name of a package. */
export function shown(target: string): string {
  const path = target.startsWith("file:") ? fileURLToPath(target) : "";
  const from = relative(folder, path);
  return path === "" ? target : from === "" || from.startsWith("..") ? path : from;
}

/** As `FILE:LINE:COLUMN`, both counted from one. */
export function placeOf({ module, reference: { range: [[line, character]] } }: Mention): string {
  return `${shown(module)}:${line + 1}:${character + 1}`;
}

export function cycleLine({ modules, path }: Cycle, before: string = ""): string {
  const more = modules.length > path.length ? ` (${modules.length} modules lead to each other)` : "";
  return printable(`${before}${[...path, path[0]].map(shown).join(" -> ")}${more}`);
}

export function stepLine({ module, by, builtAs }: Step): string {
  const place = by ? ` (${by.reference.specifier} at ${placeOf(by)})` : builtAs ? " (its source)" : "";
  return printable(shown(module) + place);
}

export function mayBeReachedLine({ module, reason }: Unreached["mayBeReached"][number]): string {
  const { module: from, position } = reason;
  const place = position ? `:${position[0] + 1}:${position[1] + 1}` : "";
  return printable(`${shown(module)}: may be reached: ${reasonText(reason)} at ${shown(from)}${place}`);
}

export function byTypesLine({ module, by }: Unreached["byTypes"][number]): string {
  return printable(`${shown(module)}: reached by types alone: ${by.reference.specifier} at ${placeOf(by)}`);
}

export function reasonText({ kind, text }: { kind: string, text?: string }): string {
  return text === undefined ? kind : `${kind} of ${text}`;
}

/** What isn't known of reached modules: a line or none. */
export function gapsNote(counts: Record<"missing" | "aliases" | "faults", number>): string[] {
  const texts = ([
    [counts.missing, "relative name leads to no file", "relative names lead to no file"],
    [counts.aliases, "name of an alias leads to no file", "names of an alias lead to no file"],
    [counts.faults, "file can't be read or parsed", "files can't be read or parsed"],
  ] as const).flatMap(([count, one, many]) => (count > 0 ? `${count} ${count === 1 ? one : many}` : []));
  return texts.length > 0 ? [`of what is reached ${texts.join(", and ")}: more may be reached than is known`] : [];
}
