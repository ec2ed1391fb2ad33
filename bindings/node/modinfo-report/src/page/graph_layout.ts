/** Asks the worker for layouts, and measures labels. */

import { textOf } from "./elements.js";
import { report } from "./report.js";
import type { Given, Layout, LayoutAnswer } from "./layout_boxes.js";

/** The size of a label's font, as in the style, and the space around it in a node. */
const FONT_SIZE = 12;
const MARGIN = 18;
export const NODE_HEIGHT = 24;

/** The longest label, in characters. */
export const LONGEST = 40;

/** Of trusted types, which only some browsers have. */
type ScriptPolicy = { createScriptURL(url: string): string };

let worker: Worker | undefined;

/** The requests that the worker hasn't replied to. */
const waiting = new Map<number, { resolve: (layout: Layout) => void, reject: (error: Error) => void }>();
let requests = 0;

/** Rejected if there is no layout. `enough` is the scale at which the first layout that fits the room is taken. */
export function askLayout(
  top: Given, room: { width: number, height: number }, enough: number = 1,
): Promise<Layout> {
  if (report.absent.dagre) {
    return Promise.reject(new Error(report.absent.dagre));
  }
  worker ??= startWorker();
  const asked = worker;
  const id = requests++;
  return new Promise((resolve, reject) => {
    waiting.set(id, { resolve, reject });
    asked.postMessage({ id, top, room, enough });
  });
}

function startWorker() {
  const text = textOf("layout");
  const url = URL.createObjectURL(new Blob([text], { type: "text/javascript" }));
  const started = new Worker(trusted(url));
  started.addEventListener("message", ({ data: { id, layout, fault } }: MessageEvent<LayoutAnswer>) => {
    const request = waiting.get(id);
    waiting.delete(id);
    if (layout) {
      request?.resolve(layout);
    } else {
      request?.reject(new Error(fault));
    }
  });
  started.addEventListener("error", ({ message }) => {
    waiting.forEach(({ reject }) => reject(new Error(message)));
    waiting.clear();
  });
  return started;
}

/** Makes the URL of a worker: the page's policy allows no other URL. */
function trusted(url: string): string {
  const { trustedTypes } = globalThis as {
    trustedTypes?: { createPolicy(name: string, rules: ScriptPolicy): ScriptPolicy },
  };
  const policy = trustedTypes?.createPolicy("layout", { createScriptURL: (each) => each });
  return policy ? policy.createScriptURL(url) : url;
}

const pen = document.createElement("canvas").getContext("2d") as CanvasRenderingContext2D;

/** @param weight of the font */
export function widthOf(label: string, weight: number = 400): number {
  pen.font = `${weight} ${FONT_SIZE}px ${getComputedStyle(document.documentElement).fontFamily}`;
  return Math.ceil(pen.measureText(label).width);
}

/** @returns the width and the height of its node */
export const sizeOfLabel = (label: string): [number, number] => [widthOf(label) + MARGIN, NODE_HEIGHT];

/** Shortens a label of more characters than `most` to its start and its end. */
export function shortLabel(label: string, most: number = LONGEST): string {
  const characters = [...label];
  const half = (most - 1) / 2;
  return characters.length <= most
    ? label
    : `${characters.slice(0, Math.ceil(half)).join("")}…${characters.slice(-Math.floor(half)).join("")}`;
}
