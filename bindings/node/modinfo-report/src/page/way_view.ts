/** Why a module is there: a shortest path to it, with the lines. */

import { detailsOf } from "./details.js";
import { element } from "./elements.js";
import { kindLabel, nameLabel, rowLink } from "./pieces.js";
import { type Step, kindRuns, report } from "./report.js";
import { wayTo } from "./ways.js";

export function wayView(module: number): HTMLElement {
  const way = wayTo(module);
  const title = element("h2", {}, "Why is it here?");
  return element("section", { class: "why" }, title, ...contentOf(way));
}

function contentOf(way: Step[] | undefined) {
  const isOfEntries = report.entries.length > 0;
  if (way === undefined) {
    return [note(isOfEntries ? "No entry leads to it." : "Only modules of a cycle lead to it.")];
  }
  if (way.length === 0) {
    return [note(isOfEntries ? "It is an entry." : "No module of this report leads to it.")];
  }
  const runs = way.every(({ kind }) => kindRuns[kind]);
  const kinds = runs ? "" : " Only types or comments lead to it, which run nothing.";
  const start = isOfEntries ? "an entry" : "a module that no other one leads to";
  return [
    note(`The shortest path from ${start}.${kinds}`),
    element("ol", { class: "steps" }, ...way.map(stepView)),
  ];
}

const note = (text: string) => element("p", { class: "none" }, text);

function stepView({ from, kind, row, line }: Step) {
  const name = element("span", { class: "step-name" });
  detailsOf(from).then(({ rows }) => name.append(nameLabel(rows[row].name)));
  const { kind: own, syntax: word } = report.kinds[kind];
  return element("li", {}, ...rowLink(from, row, line), " ", kindLabel({ kind: own, word }), " ", name);
}
