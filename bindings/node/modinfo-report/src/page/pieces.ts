/** Small elements and texts that several parts of the page show. */

import { nameParts } from "./controls.js";
import { element } from "./elements.js";
import { kindNamed, partsOf, paths, report } from "./report.js";
import { weightOf } from "./ways.js";
import type { DynamicArgument, DynamicTemplatePart } from "modinfo";
import type { Target } from "../links.js";

/** Makes a path whose name is darker than its folder. */
export function pathLabel(path: string): HTMLElement {
  const [folder, name] = partsOf(path);
  const head = element("span", { class: "folder" }, ...breakable(folder));
  return element("span", { class: "path" }, head, ...nameText(name));
}

/** Makes a text in which a line may end after each slash, and invisible characters are named. */
function breakable(text: string): (Node | string)[] {
  const parts = text.match(/[^/]*\/|[^/]+/gu) ?? [];
  return parts.flatMap((part) => [...nameText(part), element("wbr")]);
}

/** Makes a name in which invisible characters are named. */
export function nameText(text: string): (Node | string)[] {
  return nameParts(text).map((part) => (part.name
    ? element("span", { class: "control", "data-name": part.name }, part.text)
    : part.text));
}

/** @returns a link */
export function moduleLink(module: number, row?: number): HTMLElement {
  return element("a", { href: hashOf(module, row) }, pathLabel(paths[module]));
}

/** A row of a module, with its line, which is counted from zero. */
export function rowLink(module: number, row: number, line: number): HTMLElement[] {
  return [moduleLink(module, row), element("span", { class: "place" }, `:${line + 1}`)];
}

export function hashOf(module: number, row?: number): string {
  return row === undefined ? `#module-${module}` : `#module-${module}-${row}`;
}

export function kindLabel({ kind, word }: { kind: string, word: string }): HTMLElement {
  const { title } = kindNamed(kind);
  return element("span", { class: `kind ${kind}`, title: `ModuleInfo: ${word}` }, title);
}

/** Makes a specifier, or the known parts of an argument. */
export function nameLabel(name: DynamicArgument | null): HTMLElement {
  if (name === null) {
    return element("span", { class: "name unknown" }, "not known");
  }
  const parts: DynamicTemplatePart[] = typeof name === "string" ? [{ type: "string", value: name }] : name;
  const hole = { class: "hole", title: "an expression, whose value isn't known" };
  const shown = parts.map((part) => (part.type === "string"
    ? element("span", { class: "text" }, ...breakable(part.value))
    : element("span", hole, "${…}")));
  return element("code", { class: "name" }, ...shown);
}

/** Makes the target of a row. */
export function targetLabel(target: Target | undefined): HTMLElement | string {
  if (target === undefined) {
    return element("span", { class: "outside" }, "–");
  }
  if (target.module !== undefined) {
    return moduleLink(target.module);
  }
  if (target.class === "missing") {
    return element("span", { class: "missing" }, "not found");
  }
  return element("span", { class: "outside", title: "not a module of this report" }, ...outsideLabel(target));
}

function outsideLabel({ class: name, file, package: packageName, version = "" }: Target) {
  switch (name) {
    case "builtin": return ["a module of Node.js"];
    case "url": return ["a URL"];
    case "package": return [`package ${packageName} ${version}`.trim()];
    default: return file === undefined ? [name ?? ""] : [pathLabel(file)];
  }
}

/** @returns as "12 B", "3.4 kB", "56 MB" */
export function sizeText(count: number): string {
  const units = ["B", "kB", "MB", "GB"];
  let [value, unit] = [count, 0];
  for (; value >= 999.5 && unit < units.length - 1; unit++) {
    value /= 1000;
  }
  return `${unit > 0 && value < 10 ? value.toFixed(1) : Math.round(value)} ${units[unit]}`;
}

/** @returns its size and that with all that it runs, as "1.2 kB, 34 kB with the 5 modules that it runs" */
export function weightText(module: number): string {
  const { bytes, count } = weightOf(module);
  const own = sizeText(report.bytes[module]);
  return count === 1 ? own : `${own}, ${sizeText(bytes)} with the ${counted(count - 1, "module")} that it runs`;
}

/** @returns as "1 module", "2 modules" */
export function counted(count: number, one: string, many: string = `${one}s`): string {
  return `${count.toLocaleString("en")} ${count === 1 ? one : many}`;
}
