/** The legend of a graph: its kinds of edges, of which a click hides one, and its states of modules. */

import { drawn, element } from "./elements.js";
import { CYCLES, type CycleKind, hiddenKinds } from "./graph_kinds.js";
import { STATES, moduleStates, report } from "./report.js";
import type { ShownKind } from "../page_data.js";
import type { Plan } from "./graph_drawing.js";

/** The cycles, and their words. */
const CYCLE_WORDS: Record<CycleKind, string> = { run: "cycle", types: "cycle of types" };
const CYCLE_STATES: Record<CycleKind, string> = { run: "cyclic", types: "type-cyclic" };

/** What of a legend is needed. */
export interface LegendParts {
  kinds: Set<string>;
  states: Set<string>;
  cycles: CycleKind[];
}

/** @returns the kinds, states and cycles that it has */
export function partsOfPlan({ nodes, edges }: Plan): LegendParts {
  const modules = nodes.flatMap(({ module }) => module ?? []);
  const isDrawn = (each: CycleKind) => edges.some(({ cycle }) => cycle === each) ||
    nodes.some(({ look }) => look.classes.split(" ").includes(CYCLE_STATES[each]));
  return {
    kinds: new Set(edges.flatMap(({ kinds }) => [...kinds.keys()])),
    states: new Set(modules.flatMap(moduleStates)), cycles: CYCLES.filter(isDrawn),
  };
}

/** @param onHidden is called when a click hides a kind of edges, or shows it */
export function legend({ kinds, states, cycles }: LegendParts, onHidden: () => void): HTMLElement {
  const attributes = { class: "legend", "aria-label": "legend" };
  onHidden();
  return element(
    "ul", attributes,
    ...report.kinds.filter(({ kind }) => kinds.has(kind)).map((kind) => kindItem(kind, onHidden)),
    ...cycles.map((each) => element("li", {}, element("span", { class: `swatch in-${each}` }), CYCLE_WORDS[each])),
    ...STATES.filter(([state]) => states.has(state) && !state.endsWith("cyclic")).map(([state, title]) => {
      return element("li", {}, element("span", { class: `swatch ${state}` }), title);
    }),
  );
}

function kindItem({ kind, title, syntax, dash }: ShownKind, onHidden: () => void) {
  const line = drawn("path", {
    d: "M1 6H33", class: `edge ${kind}`, "stroke-dasharray": dash || undefined,
    "marker-end": `url(#arrow-${kind})`,
  });
  const frame = { viewBox: "0 0 36 12", width: 36, height: 12, "aria-hidden": "true" };
  const pressed = String(!hiddenKinds.has(kind));
  const words = `${syntax}; a click hides them`;
  const attributes = { type: "button", title: words, "aria-pressed": pressed, "data-kind": kind };
  const button = element("button", attributes, drawn("svg", frame, line), title);
  button.addEventListener("click", () => {
    const isHidden = !hiddenKinds.delete(kind) && Boolean(hiddenKinds.add(kind));
    button.setAttribute("aria-pressed", String(!isHidden));
    onHidden();
  });
  return element("li", {}, button);
}

/** Shows in a legend which kinds are hidden, after another legend has hidden some. */
export function showHidden(view: HTMLElement) {
  for (const button of view.querySelectorAll<HTMLElement>("[data-kind]")) {
    button.setAttribute("aria-pressed", String(!hiddenKinds.has(button.dataset.kind ?? "")));
  }
}

/** Hides each edge of which all kinds are hidden. */
export function hideEdges(drawing: SVGElement) {
  for (const edge of drawing.querySelectorAll<SVGElement>("[data-kinds]")) {
    const isHidden = (edge.dataset.kinds ?? "").split(" ").every((kind) => hiddenKinds.has(kind));
    edge.classList.toggle("hidden", isHidden);
  }
}
