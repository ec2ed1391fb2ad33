/** The view of one module: its source, and beside it the table of its dependencies. */

import { detailsOf } from "./details.js";
import { element } from "./elements.js";
import { counted, pathLabel, weightText } from "./pieces.js";
import { moduleStates, paths, report, stateTitle } from "./report.js";
import { sourceView } from "./source_view.js";
import { importersView, tableView } from "./table_view.js";
import { wayView } from "./way_view.js";
import type { Details, Index } from "../page_data.js";

type Fault = Index["faults"][number];

/** @returns `whole` is resolved when its text is there */
export function moduleView(index: number): { view: HTMLElement, whole: Promise<void> } {
  const text = element("div");
  const beside = element("div", { class: "beside" });
  const links = element(
    "span", { class: "links" },
    element("span", { class: "count" }, weightText(index)),
    element("a", { href: `#near-${index}` }, "graph of its neighbours"),
  );
  const view = element(
    "article", { class: "module", "data-module": index },
    element("header", {}, element("h1", {}, pathLabel(paths[index])), ...states(index), links),
    element("div", { class: "columns" }, text, beside),
  );
  return { view, whole: fill(index, text, beside) };
}

async function fill(index: number, text: HTMLElement, beside: HTMLElement) {
  const details = await detailsOf(index);
  const fault = report.faults[index];
  const table = fault ? faultView(fault) : tableView(index, details.rows);
  beside.append(table, importersView(index), wayView(index));
  await fillText(index, details, text);
}

/** Shows the text that the page has. */
async function fillText(index: number, details: Details, box: HTMLElement) {
  const { source, lines } = details;
  const left = lines && `The file has ${counted(lines, "line")}, of which this page has only some.`;
  if (left || source === undefined) {
    box.append(element("p", { class: "none" }, left || "Its text couldn't be read."));
  }
  if (source !== undefined) {
    const { view, whole } = sourceView(index, details);
    box.append(view);
    await whole;
  }
}

function states(index: number) {
  return moduleStates(index).map((state) => element("span", { class: "state" }, stateTitle(state)));
}

function faultView({ fault, message, line, column }: Fault) {
  const place = line ? `line ${line}, column ${column}: ` : "";
  return element("p", { class: "fault" }, element("strong", {}, fault), " ", `${place}${message}`);
}

/** Marks a row and its marks as chosen, and brings them into sight. */
export function choose(view: HTMLElement, row: number | undefined) {
  for (const each of view.querySelectorAll(".chosen")) {
    each.classList.remove("chosen");
  }
  if (row === undefined) {
    return;
  }
  const marks = [...view.querySelectorAll(`.mark[data-rows~="${row}"]`)];
  const line = view.querySelector(`tr[data-row="${row}"]`);
  for (const each of [...marks, line]) {
    each?.classList.add("chosen");
  }
  marks[marks.length - 1]?.scrollIntoView({ block: "nearest", inline: "nearest" });
  line?.scrollIntoView({ block: "nearest" });
}
