/** The table of a module's dependencies, and the list of its users. */

import { element } from "./elements.js";
import { hashOf, kindLabel, nameLabel, rowLink, targetLabel } from "./pieces.js";
import { type Step, importers, report } from "./report.js";
import { longList } from "./reveal.js";
import type { ImportAttributes } from "modinfo";
import type { Target } from "../links.js";
import type { RowDetails } from "../page_data.js";

/** Names in a `ModuleInfo` that repeat the kind. */
const PLAIN = new Set(["import", "require", "JSDoc import"]);

/** The table of a module's rows. */
export function tableView(index: number, rows: RowDetails[]): HTMLElement {
  if (rows.length === 0) {
    return element("p", { class: "none" }, "It names no other module.");
  }
  const names = ["Line", "Kind", "Names", "Resolves to"];
  const head = names.map((name) => element("th", { scope: "col" }, name));
  return element(
    "table", { class: "rows" },
    element("thead", {}, element("tr", {}, ...head)),
    element("tbody", {}, ...rows.map((row, at) => rowView(index, row, at))),
  );
}

function rowView(index: number, row: RowDetails, at: number) {
  const { kind, name, range, to } = row;
  const title = `ModuleInfo, from zero: ${range.map((position) => position.join(":")).join(" to ")}`;
  const line = element("a", { href: hashOf(index, at), title, class: "place" }, String(range[0][0] + 1));
  const link = element("a", { href: hashOf(index, at), title }, nameLabel(name));
  return element(
    "tr", { "data-row": at, class: kind },
    element("td", { class: "number" }, line),
    element("td", {}, kindLabel(row)),
    element("td", { class: "names" }, link, ...details(row)),
    element("td", { class: "target" }, targetLabel(to)),
  );
}

/** Makes the details below a row's name. */
function details({ word, attributes, mode, sideEffect, types, typesTo }: RowDetails) {
  return [
    ...(PLAIN.has(word) ? [] : [detail("as", element("code", {}, word))]),
    ...(sideEffect ? [detail("binds", "no name")] : []),
    ...attributeDetails(attributes),
    ...(mode ? [detail("mode", element("code", {}, mode))] : []),
    ...typesDetails(types, typesTo),
  ];
}

function typesDetails(types: string | undefined, target: Target | undefined) {
  const name = element("code", { class: "name" }, types);
  return types === undefined ? [] : [detail("types", name, " → ", targetLabel(target))];
}

function attributeDetails(attributes: ImportAttributes | undefined) {
  if (!attributes) {
    return [];
  }
  if (attributes === "unknown") {
    return [detail("attributes", "not known")];
  }
  const known = Object.entries(attributes.known);
  if (known.length === 0) {
    return [detail("attributes", "none in the clause")];
  }
  return known.map(([key, value]) => {
    const code = element("code", {}, `${key}: `, value ?? "");
    return detail("with", code, value === null ? "not known" : undefined);
  });
}

function detail(name: string, ...content: (Node | string | undefined)[]) {
  return element("div", { class: "detail" }, element("span", { class: "label" }, `${name} `), ...content);
}

/** @param index of the module */
export function importersView(index: number): HTMLElement {
  const item = ({ from, kind, row, line }: Step) => {
    const { kind: word } = report.kinds[kind];
    return element("li", {}, ...rowLink(from, row, line), " ", kindLabel({ kind: word, word }));
  };
  const found = importers(index);
  return element(
    "section", { class: "importers" },
    element("h2", {}, "Named by ", element("span", { class: "count" }, String(found.length))),
    found.length > 0 ? longList(found, item) : element("p", { class: "none" }, "no module"),
  );
}
