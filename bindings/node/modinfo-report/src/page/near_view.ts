/** The graphs of a neighbourhood, of which no edge is left out, and of a cycle, with its lines. */

import { element } from "./elements.js";
import { folderOf } from "./folders.js";
import { eachPair } from "./graph_edges.js";
import { hiddenKinds } from "./graph_kinds.js";
import { labelsOf, moduleLook, moreLook } from "./graph_nodes.js";
import { sceneWith } from "./graph_scene.js";
import { moreItem } from "./graph_tree.js";
import { type Frame, crumbs, drawSoon, graphFrame, planOfScene, roomIn, showPlan } from "./graph_view.js";
import { counted, hashOf, kindLabel, nameLabel, nameText, rowLink } from "./pieces.js";
import { eachImporter, report } from "./report.js";
import type { Found } from "../lists.js";

/** The counts of modules of a step that are tried, the most first; all others of a step are one item. */
const MOST_OF_STEP = [24, 16, 11, 7, 5];

interface Steps {
  into: number;
  from: number;
}

/** How neighbours of a module are looked for: the most of a step, those that were found before, and where to. */
interface Search {
  most: number;
  seen: Set<number>;
  eachNext: (module: number, act: (other: number, kind: number) => void) => void;
}

/** How many steps to what leads to a module, and to what it leads to, are drawn at first, and at most. */
export const STEPS: Steps = { into: 1, from: 1 };
const MOST_STEPS_AWAY = 9;

export function nearView(module: number, steps: Steps): HTMLElement {
  const frame = graphFrame([crumbs(folderOf[module]), ...nameText(report.modules[module])]);
  frame.bar.after(element("p", { class: "hint" }, ...stepLinks(module, steps)));
  return drawSoon(frame, () => drawNear(frame, module, steps));
}

async function drawNear(frame: Frame, module: number, steps: Steps) {
  let found: Awaited<ReturnType<typeof planOfScene>> | undefined;
  for (const most of MOST_OF_STEP) {
    const scene = nearScene(module, { ...steps, most });
    found = found?.isReadable ? found : await planOfScene(scene, roomIn(frame.box));
  }
  if (found && frame.view.isConnected) {
    showPlan(frame, found.plan, found.scene);
    frame.view.mover?.show(frame.box.querySelector(".chosen-node"));
  }
}

/** Returns the scene of a module, of the modules on both sides, and of items for those that are too many. */
function nearScene(module: number, { into, from, most }: Steps & { most: number }) {
  const seen = new Set([module]);
  const right = stepsFrom(module, into, { most, seen, eachNext: eachPair });
  const left = stepsFrom(module, from, { most, seen, eachNext: eachImporter });
  const modules = [module, ...right.modules, ...left.modules];
  const label = labelsOf(modules);
  const look = (each: number) => {
    const own = moduleLook(each, label(each));
    const classes = `${own.classes} chosen-node`.trim();
    return each === module ? { ...own, classes } : { ...own, href: `#near-${each}` };
  };
  const more = [...right.rests, ...left.rests].map((rest, at) => {
    const item = { ...moreItem(folderOf[module], [], rest), id: `x${at}` };
    return { ...item, look: moreLook(item, hashOf(module)) };
  });
  return sceneWith(modules, look, more);
}

/** Returns the modules of each step from one that are drawn, those with most edges, and the rest of each step. */
function stepsFrom(module: number, count: number, { most, seen, eachNext }: Search) {
  const modules: number[] = [];
  const rests: number[][] = [];
  const weight = (each: number) => report.edges[each].length;
  let last = [module];
  for (let step = 0; step < count && last.length > 0; step++) {
    const next: number[] = [];
    last.forEach((each) => eachNext(each, (other, kind) => {
      if (!seen.has(other) && !hiddenKinds.has(report.kinds[kind].kind)) {
        seen.add(other);
        next.push(other);
      }
    }));
    next.sort((one, other) => weight(other) - weight(one));
    last = next.length > most ? next.splice(0, most - 1) : next.splice(0);
    modules.push(...last);
    if (next.length > 0) {
      rests.push(next);
    }
  }
  return { modules, rests };
}

function stepLinks(module: number, { into, from }: Steps) {
  const link = (text: string, next: Steps, title: string) => {
    const href = `#near-${module}-${next.into}-${next.from}`;
    return element("a", { href, class: "step", "aria-label": title, title }, text);
  };
  const fewer = (value: number) => Math.max(0, value - 1);
  const more = (value: number) => Math.min(MOST_STEPS_AWAY, value + 1);
  return [
    "What leads to it: ",
    link("−", { into, from: fewer(from) }, "one step fewer of what leads to it"),
    ` ${counted(from, "step")} `,
    link("+", { into, from: more(from) }, "one step more of what leads to it"),
    " · what it leads to: ",
    link("−", { into: fewer(into), from }, "one step fewer of what it leads to"),
    ` ${counted(into, "step")} `,
    link("+", { into: more(into), from }, "one step more of what it leads to"),
    " · ", element("a", { href: hashOf(module), class: "open" }, "open the module"),
  ];
}

/** What isn't known of some cycles. */
const OF_TYPES = "It has imports of TypeScript files; a compiler removes those that name types alone, and then " +
  "it may be no cycle of what runs.";

/** The most modules of a cycle that are drawn; of a larger cycle, the modules of its shortest path. */
const MOST_DRAWN = 40;

/** @param number of the cycle */
export function cycleView(number: number): HTMLElement {
  const cycle = report.lists.cycles[number];
  const { modules, path, isRun, rows, isOfTypes } = cycle;
  const frame = graphFrame([`Cycle of ${counted(modules.length, "module")}`]);
  const ran = isOfTypes ? ` ${OF_TYPES}` : "";
  const kinds = isRun ? ran : " Types or comments close it: its code doesn't run in a circle.";
  const note = `The marked edges are a shortest path around it.${kinds}`;
  frame.bar.after(element("p", { class: "hint" }, note));
  const steps = element("ol", { class: "steps" }, ...rows.map(rowStep));
  frame.view.append(element("h3", {}, "Its lines"), steps);
  const drawn = modules.length > MOST_DRAWN ? path.slice(0, MOST_DRAWN) : modules;
  return drawSoon(frame, () => drawCycle(frame, drawn, path));
}

function rowStep({ module, row, line, kind, name }: Found) {
  const label = kindLabel({ kind, word: kind });
  return element("li", {}, ...rowLink(module, row, line), " ", label, " ", nameLabel(name));
}

async function drawCycle(frame: Frame, modules: number[], path: number[]) {
  const label = labelsOf(modules);
  const scene = sceneWith(modules, (module) => moduleLook(module, label(module)));
  const steps = new Set(path.map((module, at) => `m${module} m${path[(at + 1) % path.length]}`));
  for (const edge of [...scene.edges.values()].flat()) {
    edge.isMarked = steps.has(`${edge.from} ${edge.to}`);
  }
  const { plan } = await planOfScene(scene, roomIn(frame.box));
  if (frame.view.isConnected) {
    showPlan(frame, plan, scene);
    frame.view.mover?.show(frame.box.querySelector(".edge.marked"));
  }
}
