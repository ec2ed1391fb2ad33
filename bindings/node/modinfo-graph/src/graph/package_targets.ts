/**
 * What the `exports` and `imports` of a package.json lead to, without looking at a file:
 * PACKAGE_EXPORTS_RESOLVE, PACKAGE_IMPORTS_RESOLVE, PACKAGE_TARGET_RESOLVE
 * (https://nodejs.org/api/esm.html#resolution-algorithm-specification).
 */

import { urlFrom } from "../files/urls.js";

/** The folder is the package's, with a slash at the end. */
type Context = { folder: URL, conditions: ReadonlySet<string> };

/**
 * What is looked for next: a file, or a package by its name. The next one of a list is tried after `none`, as
 * `null` is, and after `invalid`, but not after `refused`
 */
export type Target = { kind: "file", url: URL }
  | { kind: "name", name: string }
  | { kind: "none" }
  | { kind: "invalid" | "refused", why: string };

/** What the `*` of its key stands for, whether it is of `imports`, and in how many conditions and lists it is */
type Place = { match?: string, isImport: boolean, depth: number };
/** The most conditions and lists in each other. */
const MAX_DEPTH = 1000;
const NONE: Target = { kind: "none" };
/** `.`, `..` and `node_modules` as one part of a path, where letters and dots aren't encoded. */
const FORBIDDEN_PART = /(?:^|[\\/])(?:\.{1,2}|node_modules)(?:[\\/]|$)/i;
/** A letter, a dot or an underscore, as a URL may have it. */
const ENCODED = /%(?:2e|5f|[46][1-9a-f]|[57][0-9a])/gi;

/** The target of `.`, or of what follows a package's name after a `.`; there is an `exports`. */
export function exportsTarget(exports: unknown, subpath: string, context: Context): Target {
  const keys = isObject(exports) ? Object.keys(exports) : [];
  const conditions = keys.filter((key) => !key.startsWith("."));
  if (conditions.length > 0 && conditions.length < keys.length) {
    return refused(`"exports" has conditions and subpaths in one object`);
  }
  const isMain = typeof exports === "string" || Array.isArray(exports) || conditions.length > 0;
  const targets = isMain ? { ".": exports } : exports;
  const isExact = !subpath.includes("*") && !subpath.endsWith("/");
  return targetIn(targets, subpath, isExact, "exports", context);
}

/** The target of a name that begins with `#`; there is an `imports`. */
export function importsTarget(imports: unknown, name: string, context: Context): Target {
  return name === "#" || name.startsWith("#/") || name.endsWith("/")
    ? refused(`${JSON.stringify(name)} isn't a valid name in "imports"`)
    : targetIn(imports, name, !name.includes("*"), "imports", context);
}

function targetIn(
  targets: unknown, name: string, isExact: boolean, member: "exports" | "imports", context: Context,
): Target {
  if (!isObject(targets)) {
    return refused(`"${member}" must be an object`);
  }
  const { target, match } = chosen(targets, name, isExact);
  return targetOf(target, { match, isImport: member === "imports", depth: 0 }, context) ?? NONE;
}

/** @returns targets by `.` and subpaths */
export function bySubpath(exports: unknown): Record<string, unknown> {
  const isMap = isObject(exports) && Object.keys(exports).some((key) => key.startsWith("."));
  return isMap ? exports : { ".": exports };
}

/** The files that a key of `exports` or `imports` leads to, whatever conditions hold, but for types. */
export function allTargets(member: unknown, name: string, folder: URL, isImport: boolean = false): URL[] {
  const targets = isImport ? (isObject(member) ? member : {}) : bySubpath(member);
  const { target, match } = chosen(targets, name, true);
  return textsIn(target).flatMap((text) => {
    const found = targetOfText(text, { match, isImport, depth: 0 }, { folder, conditions: new Set() });
    return found.kind === "file" ? found.url : [];
  });
}

/** The texts in a member of a package.json, whatever conditions hold, but for types. */
export function textsIn(value: unknown): string[] {
  const todo = [value];
  // What is added meanwhile follows.
  for (const next of todo) {
    const members = typeof next === "object" ? Object.entries(next ?? {}) : [];
    members.filter(([key]) => !key.startsWith("types")).forEach(([, each]) => todo.push(each));
  }
  return todo.filter((each): each is string => typeof each === "string");
}

/** The target of a key: of one that is the name itself, else of the longest pattern for it; null for none. */
function chosen(targets: Record<string, unknown>, name: string, isExact: boolean) {
  const isKey = isExact && Object.hasOwn(targets, name);
  const best = isKey ? { key: name, match: undefined } : longestPattern(Object.keys(targets), name);
  return { target: best ? targets[best.key] : null, match: best?.match };
}

/** The pattern with the longest text before its `*`, and of several the longest one. */
export function longestPattern(keys: string[], name: string): { key: string, match: string } | undefined {
  const found = keys.flatMap((key) => {
    const [start, end, ...more] = key.split("*");
    const isMatch = end !== undefined && more.length === 0 && name.length >= key.length &&
      name.startsWith(start) && name.endsWith(end);
    return isMatch ? { key, at: start.length, match: name.slice(start.length, name.length - end.length) } : [];
  });
  return found.sort((one, other) => other.at - one.at || other.key.length - one.key.length)[0];
}

/** @returns nothing where none of its conditions holds */
function targetOf(target: unknown, place: Place, context: Context): Target | undefined {
  const inside = { ...place, depth: place.depth + 1 };
  return place.depth > MAX_DEPTH ? refused(`more than ${MAX_DEPTH} conditions or lists are in each other`)
    : typeof target === "string" ? targetOfText(target, place, context)
    : Array.isArray(target) ? firstOfList(target, inside, context)
    : isObject(target) ? firstOfConditions(target, inside, context)
    : target === null ? NONE : invalid(`${JSON.stringify(target)} isn't a valid target`);
}

/** @returns what is wrong with the last one, where there is no other */
function firstOfList(list: unknown[], place: Place, context: Context): Target | undefined {
  let last: Target | undefined = list.length === 0 ? NONE : undefined;
  for (const each of list) {
    const found = targetOf(each, place, context);
    if (found && found.kind !== "none" && found.kind !== "invalid") {
      return found;
    }
    last = found ?? last;
  }
  return last;
}

/** @param targets by their conditions */
function firstOfConditions(targets: Record<string, unknown>, place: Place, context: Context): Target | undefined {
  const keys = Object.keys(targets);
  if (keys.some(isIndex)) {
    return refused("a condition can't be a number");
  }
  for (const key of keys.filter((each) => each === "default" || context.conditions.has(each))) {
    const found = targetOf(targets[key], place, context);
    if (found) {
      return found;
    }
  }
  return undefined;
}

function targetOfText(target: string, { match, isImport }: Place, { folder }: Context): Target {
  const filled = (text: string) => (match === undefined ? text : text.replaceAll("*", () => match));
  if (isImport && !/^(?:\.{1,2})?\//.test(target) && !urlFrom(target)) {
    return { kind: "name", name: filled(target) };
  }
  const url = target.startsWith("./") ? new URL(target, folder) : undefined;
  if (!url?.pathname.startsWith(folder.pathname) || isForbidden(target.slice(2))) {
    return invalid(`${JSON.stringify(target)} isn't a valid target: it leaves the package, or lacks "./"`);
  }
  return match !== undefined && isForbidden(match)
    ? refused(`${JSON.stringify(match)} can't stand for a *`)
    : { kind: "file", url: new URL(filled(url.href)) };
}

const isForbidden = (path: string) => FORBIDDEN_PART.test(path.replace(ENCODED, decodeURIComponent));
const refused = (why: string): Target => ({ kind: "refused", why });
const invalid = (why: string): Target => ({ kind: "invalid", why });
/** Whether node takes a key for the index of a list. */
const isIndex = (key: string) => String(Number(key)) === key && Number(key) >= 0 && Number(key) < 2 ** 32 - 1;

export function isObject(value: unknown): value is Record<string, unknown> {
  return typeof value === "object" && value !== null && !Array.isArray(value);
}
