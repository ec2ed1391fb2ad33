/** Keys and the pointer in a graph: on a node the arrows go to the next node in that direction. */

import { drawnEnds, eachPair } from "./graph_edges.js";
import { eachImporter } from "./report.js";
import { type Item, eachModuleOf } from "./graph_tree.js";
import type { Mover } from "./graph_move.js";
import type { Scene } from "./graph_scene.js";

const DIRECTIONS = new Map<string, [right: number, down: number]>([
  ["ArrowLeft", [-1, 0]], ["ArrowRight", [1, 0]], ["ArrowUp", [0, -1]], ["ArrowDown", [0, 1]],
]);

/** @param box of a drawing */
export function listenInGraph(box: HTMLElement, mover: Mover) {
  box.addEventListener("keydown", (event) => {
    if (event.ctrlKey || event.metaKey || event.altKey) {
      return;
    }
    const node = (event.target as Element).closest<SVGElement>(".node");
    const direction = node && DIRECTIONS.get(event.key);
    if (direction) {
      event.preventDefault();
      goTo(node, nearest(node, direction), mover);
    } else if (mover.onKey(event)) {
      event.preventDefault();
      event.stopPropagation();
    }
  });
}

function goTo(from: SVGElement, to: SVGElement | undefined, mover: Mover) {
  if (to) {
    from.setAttribute("tabindex", "-1");
    to.setAttribute("tabindex", "0");
    to.focus({ preventScroll: true });
    mover.show(to);
  }
}

function nearest(node: SVGElement, [right, down]: [number, number]): SVGElement | undefined {
  const from = centre(node);
  let best: { other: SVGElement, far: number } | undefined;
  for (const other of node.parentElement?.querySelectorAll<SVGElement>(":scope > *") ?? []) {
    const to = centre(other);
    const along = (to.x - from.x) * right + (to.y - from.y) * down;
    const aside = Math.abs((to.x - from.x) * down) + Math.abs((to.y - from.y) * right);
    const far = along + 2 * aside;
    if (along > 1 && aside < 4 * along && (!best || far < best.far)) {
      best = { other, far };
    }
  }
  return best?.other;
}

function centre(node: SVGElement) {
  const { x, y, width, height } = node.querySelector("rect") as SVGRectElement;
  return { x: x.baseVal.value + width.baseVal.value / 2, y: y.baseVal.value + height.baseVal.value / 2 };
}

/** Marks the edges of the modules of a node that has the pointer or the focus; nodes without one of them fade. */
export function followPointer(drawing: SVGElement, scene: Scene) {
  const items = new Map<string, Item>();
  scene.leaves.forEach((item) => item && items.set(item.id, item));
  const show = (id: string | undefined) => showNear(drawing, items.get(id ?? ""), scene);
  const nodeAt = ({ target }: Event) => (target as Element).closest<SVGElement>(".node")?.dataset.id;
  for (const name of ["pointerover", "focusin"]) {
    drawing.addEventListener(name, (event) => show(nodeAt(event)));
  }
  for (const name of ["pointerleave", "focusout"]) {
    drawing.addEventListener(name, () => show(undefined));
  }
}

function showNear(drawing: SVGElement, item: Item | undefined, scene: Scene) {
  drawing.classList.toggle("following", item !== undefined);
  const near = item ? neighbours(item, scene) : [];
  const ids = new Set<string | undefined>([item?.id, ...near.flatMap((ends) => ends.map(({ id }) => id))]);
  for (const node of drawing.querySelectorAll<SVGElement>(".node")) {
    node.classList.toggle("near", ids.has(node.dataset.id));
  }
  const keys = new Set(near.map((ends) => drawnEnds(...ends).map(({ id }) => id).join(" ")));
  for (const edge of drawing.querySelectorAll<SVGElement>("[data-from]")) {
    edge.classList.toggle("near", keys.has(`${edge.dataset.from} ${edge.dataset.to}`));
  }
}

/** Returns the pairs of an item and another between which there is an edge. */
function neighbours(item: Item, { leaves }: Scene): [Item, Item][] {
  const found = new Map<string, [Item, Item]>();
  const add = (from: number, to: number) => {
    const [first, second] = [leaves[from], leaves[to]];
    if (first && second && first !== second) {
      found.set(`${first.id} ${second.id}`, [first, second]);
    }
  };
  eachModuleOf(item, (module) => {
    eachPair(module, (to) => add(module, to));
    eachImporter(module, (from) => from !== module && add(from, module));
  });
  return [...found.values()];
}
