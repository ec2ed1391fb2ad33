/**
 * Components and pages as modules: their scripts, each as a text of its own, and what they name, together.
 * What is outside of a script is blank, so each position in it is that in the file.
 */

import { extname, resolve as absolute } from "node:path";

import { Core } from "modinfo/internal/core/instance.cjs";
import { plans } from "modinfo/internal/core/plans.cjs";
import { compiledModule, modulePath } from "modinfo/internal/wasm_module.js";
import { isComponent, isPage, mediaTypeOfLanguage, mediaTypeOfMime } from "../files/file_kinds.js";
import { isWasm } from "../files/program.js";
import { readRegularText } from "../files/regular_files.js";
import { urlOfPath } from "../files/urls.js";
import { FileFault, faultOf } from "../runtime/faults.js";
import type { DependencyDescriptor, MediaType, ModuleInfo } from "modinfo";
import type { Read } from "../files/read_files.js";

/** The `src` of a script, with the range of its quotes. */
export type Source = Range & { name: string };
/** The text of each script up to its end, and the JSON of each import map. */
type Scripts = { scripts: { text: string, mediaType: MediaType }[], sources: Source[], importMaps: string[] };
const MOST_CHARACTERS = 2 ** 26;
const NO_LINE_BREAK = /[^\r\n\u2028\u2029]/gu;
const FRONT_MATTER = /^(\ufeff?\s*---[^\S\n]*\r?\n)([^]*?)^---[^\S\n]*$/m;
/** The beginning of code in Markdown, and that of an import or an export in MDX. */
const FENCE = /^\s*(`{3,}|~{3,})/;
const DECLARATION = /^(?:import|export)(?=[\s{*"'])/;
/** Those of a page, and those of MDX. */
const COMMENTS = [/<!--[^]*?(-->|$)/g, /\{\/\*[^]*?(\*\/\}|$)/g];
const REPORT = /^<!DOCTYPE html>\n<html lang="en">\n[^]{0,1000}<title>Dependencies of /;
export const isReport = (text: string): boolean => REPORT.test(text);
/** The media types of the scripts that have no word for it. */
const STANDARD = new Map<string, MediaType>([[".astro", "TypeScript"], [".mdx", "Jsx"]]);

/** Those of a component or a page. @throws {RangeError} the texts would take too much memory */
export function scriptsOf(text: string, path: string): Scripts {
  const ending = extname(path).toLowerCase();
  const standard = STANDARD.get(ending) ?? "JavaScript";
  const all: Scripts = { scripts: [], sources: [], importMaps: [] };
  const add = (ranges: Range[], mediaType: MediaType) => {
    all.scripts.push(...ranges.length > 0 ? [{ text: textOf(text, ranges), mediaType }] : []);
  };
  if (ending === ".mdx") {
    // They are one module.
    add(blocksOf(COMMENTS.reduce(withoutComments, text)), standard);
    return all;
  }
  const [before = "", opening = "", front = ""] = (ending === ".astro" && FRONT_MATTER.exec(text)) || [];
  add(before === "" ? [] : [{ start: opening.length, end: opening.length + front.length }], standard);
  let length = 0;
  for (const { attributes, start, end } of scriptTags(text, before.length, ending !== ".vue")) {
    const source = attributes.get("src");
    const [type, language] = ["type", "lang"].map((name) => attributes.get(name)?.value ?? "");
    const ofType = type === "" || type === "module" ? standard : mediaTypeOfMime(type);
    // Without one it is no script of a module.
    const mediaType = language === "" ? ofType : mediaTypeOfLanguage(language);
    if (type.toLowerCase() === "importmap") {
      all.importMaps.push(text.slice(start, end));
    } else if (mediaType && source) {
      all.sources.push({ ...source, name: source.value });
    } else if (mediaType && /\S/.test(text.slice(start, end))) {
      length += end;
      if (length > MOST_CHARACTERS) {
        throw new RangeError("too many scripts to read");
      }
      add([{ start, end }], mediaType);
    }
  }
  return all;
}

/** A text with blanks in place of what no program reads: comments of a page, and prose. */
export function searchedText(text: string, path: string): string {
  const isMarkdown = path.toLowerCase().endsWith(".mdx");
  return isMarkdown ? scriptsOf(text, path).scripts.map((each) => each.text).join("")
    : isComponent(path) || isPage(path) ? withoutComments(text, COMMENTS[0]) : text;
}

/** What is in ascending ranges, with as many characters in each line before it. */
function textOf(text: string, ranges: Range[]): string {
  let at = 0;
  return ranges.map(({ start, end }) => {
    const before = text.slice(at, start).replace(NO_LINE_BREAK, " ");
    at = end;
    return before + text.slice(start, end);
  }).join("");
}

/** The imports and exports of MDX: from a line that begins with one to the next empty line. */
function blocksOf(text: string): Range[] {
  const blocks: Range[] = [];
  let [at, fence, isOpen, isFree] = [0, "", false, true];
  for (const line of text.split("\n")) {
    const [, mark = ""] = FENCE.exec(line) ?? [];
    const end = at + line.length;
    if (fence !== "") {
      isFree = mark.startsWith(fence);
      fence = isFree ? "" : fence;
    } else if (isOpen && line.trim() !== "") {
      blocks[blocks.length - 1].end = end;
    } else if (isFree && DECLARATION.test(line)) {
      isOpen = true;
      blocks.push({ start: at, end });
    } else {
      [fence, isOpen, isFree] = [mark, false, /^(?:---)?\s*$/.test(line)];
    }
    at = end + 1;
  }
  return blocks;
}

/** The text with blanks in place of comments, as long as before; a comment without an end stays. */
function withoutComments(text: string, comments: RegExp): string {
  return text.replace(comments, (comment, end) => (end === "" ? comment : comment.replace(/[^\n]/g, " ")));
}

/** Returns what finds the line and character, from zero, of an offset in UTF-16 units, ascending ones quickest. */
export function positionsIn(text: string): (offset: number) => [number, number] {
  let [at, line, character] = [0, 0, 0];
  return (offset) => {
    [at, line, character] = offset < at ? [0, 0, 0] : [at, line, character];
    const lines = text.slice(at, offset).split("\n");
    character = (lines.length > 1 ? 0 : character) + [...lines[lines.length - 1]].length;
    line += lines.length - 1;
    at = offset;
    return [line, character];
  };
}

type Range = { start: number, end: number };
/** Attributes by their names in lower case, whose ranges have the quotes, and the range of what is in the tag. */
type ScriptTag = Range & { attributes: Map<string, Range & { value: string }> };
/** A comment, or a tag whose content isn't searched for others. */
const RAW = /<!--|<(script|style|textarea|title|xmp)(?=[\s/>])/gi;
const ANY = /<!--|<([a-z][\w.:-]*)(?=[\s/>])/gi;
const ATTRIBUTE = /[\s/]*([^\s"'<>/=]+)(?:\s*=\s*("[^"]*"|'[^']*'|[^\s"'>][^\s>]*))?/y;
const TAG_END = /\s*\/?>/y;
/** After how many tags without an end no more are looked at. */
const MOST_OPEN = 100;

/** @param isWhole whether scripts inside of others count */
export function* scriptTags(text: string, from: number, isWhole: boolean): Generator<ScriptTag, void> {
  const pattern = new RegExp(isWhole ? RAW : ANY);
  let [open, hasComments] = [0, true];
  pattern.lastIndex = from;
  for (let found = pattern.exec(text); found; found = pattern.exec(text)) {
    const { 1: name, index } = found;
    if (name === undefined) {
      // `<!-->` is a comment too, and one without an end is none.
      const end = hasComments ? text.indexOf("-->", index + 2) : -1;
      hasComments = end >= 0;
      pattern.lastIndex = Math.max(pattern.lastIndex, end + 3);
      continue;
    }
    const { attributes, end: start, isEnded, isEmpty } = tagAt(text, pattern.lastIndex);
    const content = isEmpty && !isWhole ? [start, start] : contentAt(text, start, name, isWhole);
    open += Number(!content);
    const [end, next] = content ?? [start, open < MOST_OPEN ? start : text.length];
    pattern.lastIndex = next;
    if (isEnded && name.toLowerCase() === "script") {
      yield { attributes, start, end };
    }
  }
}

/** The rest of a tag, which may have no end. */
function tagAt(text: string, from: number) {
  const attributes: ScriptTag["attributes"] = new Map();
  let end = from;
  ATTRIBUTE.lastIndex = from;
  for (let found = ATTRIBUTE.exec(text); found; found = ATTRIBUTE.exec(text)) {
    const [, name, written = ""] = found;
    end = ATTRIBUTE.lastIndex;
    const value = /^["']/.test(written) ? written.slice(1, -1) : written;
    const key = name.toLowerCase();
    attributes.set(key, attributes.get(key) ?? { value, start: end - written.length, end });
  }
  TAG_END.lastIndex = end;
  const [mark = ""] = TAG_END.exec(text) ?? [];
  return { attributes, end: end + mark.length, isEnded: mark !== "", isEmpty: mark.endsWith("/>") };
}

/** The offsets of the end of what is in a tag's element, and of that after it; nothing where it has none. */
function contentAt(text: string, start: number, name: string, isWhole: boolean): [number, number] | undefined {
  const isText = /^(?:script|style)$/i.test(name) || isWhole;
  const pattern = new RegExp(`<(/?)${name.replace(/\./g, "\\.")}(?=[\\s/>])[^>]*`, "gi");
  pattern.lastIndex = start;
  let depth = 1;
  for (const { 0: whole, 1: isEnd, index = 0 } of text.matchAll(pattern)) {
    depth += isEnd ? -1 : Number(!isText && !whole.endsWith("/"));
    if (depth === 0) {
      return [index, index + whole.length];
    }
  }
  return undefined;
}

const MOST_BYTES = 2 ** 24;
/** The members of a `ModuleInfo` that are lists, and those of which the first script's counts. */
const LISTS = ["dependencies", "tsReferences", "jsdocImports"] as const;
const SINGLE = ["selfTypesSpecifier", "jsxImportSource", "jsxImportSourceTypes"] as const;

/**
 * Reads a component or a page. `value` is a `ModuleInfo` of the scripts that can be read, with `isUrl` in
 * what the `src` of a page's script names; `fault` is that of the first script that can't be read. A page
 * without scripts, and a report that was made before, has neither.
 */
export async function readComponent(path: string, infoOf: ReturnType<typeof textReader>): Promise<Read> {
  try {
    const text = readRegularText(path, MOST_BYTES);
    const { scripts, sources } = scriptsOf(isReport(text) ? "" : text, path);
    if (isPage(path) && scripts.length + sources.length === 0) {
      return {};
    }
    const url = urlOfPath(absolute(path));
    const read = await Promise.allSettled(scripts.map((each) => infoOf(each.text, url, each.mediaType)));
    const infos = read.flatMap((each) => (each.status === "fulfilled" ? [each.value] : []));
    const [fault] = read.flatMap((each) => (each.status === "rejected" ? [faultOf(each.reason)] : []));
    const positionOf = positionsIn(text);
    const dependencies = sources.map(({ name, start, end }): DependencyDescriptor & { isUrl?: boolean } => ({
      type: "static", kind: "import", sideEffect: true, specifier: name,
      specifierRange: [positionOf(start), positionOf(end)], ...(isPage(path) && { isUrl: true }),
    }));
    return { value: merged([{ dependencies }, ...infos]), ...(fault && { fault }) };
  } catch (error) {
    return { fault: faultOf(error instanceof RangeError ? new FileFault("Input", error.message) : error) };
  }
}

function merged(infos: ModuleInfo[]): ModuleInfo {
  const lists = LISTS.map((name) => [name, infos.flatMap((info): unknown[] => info[name] ?? [])] as const);
  const single = SINGLE.map((name) => [name, infos.find((info) => info[name])?.[name]] as const);
  return Object.fromEntries([...lists, ...single].filter(([, value]) => {
    return Array.isArray(value) ? value.length > 0 : value;
  }));
}

/** Returns what analyzes texts by the WebAssembly module, which is loaded with the first text. */
export function textReader(program: string) {
  let core: Core | undefined;
  return async (text: string, specifier: string, mediaType: MediaType): Promise<ModuleInfo> => {
    core ??= new Core(compiledModule(isWasm(program) ? program : modulePath()));
    return plans.moduleInfo(text, specifier, mediaType)(core);
  };
}
