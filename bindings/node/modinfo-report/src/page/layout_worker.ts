/**
 * The worker: lays out a drawing in several directions, and returns the first layout that is large
 * enough in its room, else the largest.
 */

import { layoutOf } from "./layout_boxes.js";
import type { Direction, Given, Layout, LayoutAnswer, LayoutRequest } from "./layout_boxes.js";

/** Directions of edges, outside and inside of boxes, in the order in which they are tried. */
const TRIED: [Direction, Direction][] = [["LR", "LR"], ["TB", "LR"], ["LR", "TB"], ["TB", "TB"]];

addEventListener("message", ({ data: { id, top, room, enough } }: MessageEvent<LayoutRequest>) => {
  const reply = (answer: LayoutAnswer) => postMessage(answer);
  try {
    reply({ id, layout: bestLayout(top, room, enough) });
  } catch (error) {
    reply({ id, fault: String(error) });
  }
});

function bestLayout(top: Given, { width, height }: { width: number, height: number }, enough: number) {
  let best: { layout: Layout, scale: number } | undefined;
  for (const directions of TRIED) {
    const layout = layoutOf(top, width / height, directions);
    const scale = Math.min(width / layout.width, height / layout.height);
    if (best === undefined || scale > best.scale) {
      best = { layout, scale };
    }
    if (scale >= enough) {
      break;
    }
  }
  return best?.layout;
}
