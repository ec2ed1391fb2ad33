/** The lists of modules and dependencies to look at first. */

import { element } from "./elements.js";
import { counted, kindLabel, moduleLink, nameLabel, nameText, pathLabel, rowLink } from "./pieces.js";
import { importers, report } from "./report.js";
import { longList } from "./reveal.js";
import type { Found, Lists, MayBeReached, ShownCycle } from "../lists.js";
import type { Classes, Outside } from "../outside.js";

/** The most modules of a cycle in its item. */
const MOST_STEPS = 8;

/** The words of reasons that aren't the text of a call. */
const REASONS: Record<string, string> = {
  template: "a partly known argument", script: "a script of a page", fault: "in a file that isn't analyzed",
  excluded: "imported by an excluded file", ignored: "in an ignored file",
  import: "imported by a module that may be reached",
};

/** A list: its title, the words of the summary for one item and for more, and its view. */
interface ShownList {
  id: string;
  title: string;
  one: string;
  many?: string;
  note?: string;
  count: number;
  view: () => HTMLElement;
}

const LISTS: ShownList[] = [
  {
    id: "missing", title: "Missing", one: "missing",
    note: "They resolve to no file or package.", ...viewed("missing", rowItem),
  },
  {
    id: "unknown", title: "Unknown arguments", one: "unknown argument", many: "unknown arguments",
    note: "Nothing of their text is known.", ...viewed("unknown", rowItem),
  },
  {
    id: "partly", title: "Partly known arguments", one: "partly known",
    note: "Only a part of their text is known.", ...viewed("partly", rowItem),
  },
  { id: "unreached", ...unreachedWords(), ...viewed("unreached", unreachedItem) },
  {
    id: "mayBeReached", title: "May be reached", one: "may be reached",
    note: "No import leads to them for certain, but something that isn't known as a whole may.",
    ...viewed("mayBeReached", mayBeReachedItem),
  },
  {
    id: "byTypes", title: "Reached by types alone", one: "by types alone", note: "Nothing runs them.",
    ...viewed("byTypes", byTypesItem),
  },
  {
    id: "cycles", title: "Cycles", one: "cycle", many: "cycles",
    note: "Each module of a cycle leads to each other one.", ...viewed("cycles", cycleItem),
  },
  {
    id: "faults", title: "Files that aren't analyzed", one: "not analyzed",
    note: "They have a syntax error, or couldn't be read.", ...viewed("faults", faultItem),
  },
];

/** Numbers of a user: the module, the row and the line. */
const USER = 3;

/** The lists of what is outside the report, by class. */
const CLASSES: (Omit<ShownList, "id" | "count" | "view"> & { id: keyof Classes })[] = [
  {
    id: "packages", title: "Packages", one: "package", many: "packages",
    note: "With the version that is installed, else the one in package.json.",
  },
  { id: "builtins", title: "Modules of Node.js", one: "module of Node.js", many: "modules of Node.js" },
  { id: "assets", title: "Assets", one: "asset", many: "assets", note: "Files that aren't modules." },
  {
    id: "files", title: "Other files", one: "other file", many: "other files",
    note: "Modules that exist, but aren't in this report.",
  },
  { id: "urls", title: "URLs", one: "URL", many: "URLs", note: "They aren't loaded." },
];

/** Those that aren't empty. */
const OUTSIDE: ShownList[] = CLASSES.filter(({ id }) => report.outside[id].length > 0).map((list) => {
  const items = report.outside[list.id];
  return { ...list, count: items.length, view: () => longList(items, outsideItem) };
});

/** How many items a list of the report has, and the view of all, in which each item has some elements. */
function viewed<Name extends keyof Lists>(name: Name, contentOf: (item: Lists[Name][number]) => HTMLElement[]) {
  const items: Lists[Name][number][] = report.lists[name];
  return {
    count: items.length, view: () => longList(items, (each) => element("li", {}, ...contentOf(each))),
  };
}

function unreachedWords() {
  return report.entries.length > 0
    ? {
      title: "Unreached from the entries", one: "unreached",
      note: "No entry leads to them by imports that run, nor by types, and nothing is known that may.",
    }
    : {
      title: "Imported by no module", one: "imported by no module",
      note: "No module of this report leads to them. With --entry, the list has the modules that no entry " +
        "reaches.",
    };
}

export function summaryView(): HTMLElement {
  const items = [...LISTS, ...OUTSIDE].map(({ id, one, many = one, count }) => {
    const text = counted(count, one, many);
    const state = id === "missing" ? "some alarm" : "some";
    return count === 0
      ? element("span", { class: "zero" }, text)
      : element("a", { href: `#list-${id}`, class: state }, text);
  });
  const { modules, edgeCount } = report;
  const size = `${counted(modules.length, "module")}, ${counted(edgeCount, "edge")}`;
  return element("p", { class: "summary" }, element("span", {}, size), ...items);
}

export function listsView(): HTMLElement {
  return element("div", { class: "lists" }, ...[...LISTS, ...OUTSIDE].map(listView));
}

function listView({ id, title, note, count, view }: ShownList) {
  const number = element("span", { class: "count" }, count.toLocaleString("en"));
  const attributes = { id: `list-${id}`, class: count > 0 ? "list" : "list zero" };
  const section = element("section", attributes, element("h2", {}, title, " ", number));
  if (count > 0) {
    section.append(...(note === undefined ? [] : [element("p", { class: "hint" }, note)]), view());
  }
  return section;
}

function rowItem(found: Found) {
  const { module, row, line, name } = found;
  const kind = kindLabel({ ...found, word: found.kind });
  return [nameLabel(name), kind, element("span", {}, ...rowLink(module, row, line))];
}

function unreachedItem(module: number) {
  const named = report.entries.length > 0 ? importers(module).length : 0;
  const note = named > 0 ? `named by ${counted(named, "place")}` : "";
  return [moduleLink(module), element("span", { class: "note" }, note)];
}

function mayBeReachedItem({ module, kind, by, file, line, text = "" }: MayBeReached) {
  const reason = element("span", {}, `${REASONS[kind] ?? kind} `, element("code", { class: "name" }, text));
  return [moduleLink(module), reason, placeOf({ by, file, line })];
}

function byTypesItem({ module, by, file, line, text = "" }: Lists["byTypes"][number]) {
  return [moduleLink(module), element("code", { class: "name" }, text), placeOf({ by, file, line })];
}

/** Makes the place of a name: in a module of the report, or in another file. */
function placeOf({ by, file = "", line }: Pick<MayBeReached, "by" | "file" | "line">) {
  const place = element("span", { class: "place" }, line === undefined ? "" : `:${line + 1}`);
  return element("span", {}, by === undefined ? pathLabel(file) : moduleLink(by), place);
}

function cycleItem(cycle: ShownCycle) {
  const { modules, path, isRun, isOfTypes } = cycle;
  const arrow = () => element("span", { class: "arrow" }, " → ");
  const steps = path.slice(0, MOST_STEPS).flatMap((module) => [moduleLink(module), arrow()]);
  const left = path.length - MOST_STEPS;
  const gap = left > 0 ? [`${counted(left, "module")} more`, arrow()] : [];
  const more = modules.length > path.length ? `, ${modules.length} modules in all` : "";
  const number = report.lists.cycles.indexOf(cycle);
  const colour = element("span", { class: `swatch in-${isRun ? "run" : "types"}` });
  const link = element("a", { href: `#cycle-${number}`, class: "show" }, "show in the graph");
  const ran = isOfTypes ? "perhaps by types alone" : "";
  const note = isRun ? ran : "by types or JSDoc only";
  return [
    element("span", { class: "way" }, ...steps, ...gap, moduleLink(path[0]), more),
    element("span", { class: "note" }, colour, link, note && ` ${note}`),
  ];
}

function faultItem(module: number) {
  const { fault, message, line, column } = report.faults[module];
  const place = line ? `:${line}:${column}` : "";
  return [
    element("span", {}, moduleLink(module), element("span", { class: "place" }, place)),
    element("span", { class: "kind fault" }, fault),
    element("span", {}, message),
  ];
}

/** @returns a list item that shows its users when it is opened */
function outsideItem({ name, version, isAbsent, users }: Outside): HTMLElement {
  const count = counted(users.length / USER, "place");
  const summary = element(
    "summary", {},
    element("span", { class: "name" }, ...nameText(name)),
    element("span", { class: "version" }, [version, isAbsent && "not installed"].filter(Boolean).join(", ")),
    element("span", { class: "count" }, count),
  );
  const details = element("details", {}, summary);
  details.addEventListener("toggle", () => details.append(usersList(users)), { once: true });
  return element("li", {}, details);
}

function usersList(users: number[]) {
  const items: number[][] = [];
  for (let at = 0; at < users.length; at += USER) {
    items.push(users.slice(at, at + USER));
  }
  return longList(items, ([module, row, line]) => {
    return element("li", {}, element("span", {}, ...rowLink(module, row, line)));
  });
}
