/** A module's text with its marks. */

import { withControls } from "./controls.js";
import { element, nextTask } from "./elements.js";
import { hashOf } from "./pieces.js";
import { kindNamed } from "./report.js";
import { type Segment, lineSegments } from "./segments.js";
import type { Details } from "../page_data.js";

/** Count of lines that a browser lays out together, when they are seen. */
const BLOCK = 200;

/** Milliseconds in which lines are made in one task. */
const SLICE = 20;

/**
 * The text of a module.
 * @returns the view has its first lines at once; `whole` is resolved when it has all, or is no longer shown
 */
export function sourceView(module: number, details: Details): { view: HTMLElement, whole: Promise<void> } {
  const code = element("code", { class: "source" });
  const view = element("pre", { tabindex: 0, "aria-label": "source" }, code);
  const lines = linesOf(module, details, code);
  return { view, whole: addLines(lines, view) };
}

/** Makes lines in several tasks. */
async function addLines(lines: Generator<void>, view: HTMLElement) {
  for (let isDone: boolean | undefined = false; !isDone; ) {
    const end = performance.now() + SLICE;
    while (!isDone && performance.now() < end) {
      isDone = lines.next().done;
    }
    if (!isDone) {
      await nextTask();
      isDone = !view.isConnected;
    }
  }
}

/** Adds one line to the code at each step. */
function* linesOf(module: number, details: Details, code: HTMLElement): Generator<void> {
  const { source = "", marks } = details;
  const numbers = lineNumbers(details);
  let block = code;
  let at = 0;
  for (const segments of lineSegments(source, marks)) {
    if (at % BLOCK === 0) {
      block = element("span", { class: "block" });
      code.append(block);
    }
    const { number, isAfterGap } = numbers(at);
    const parts = segments.map((segment) => segmentView(module, source, segment));
    const attributes = { class: isAfterGap ? "line after-gap" : "line", "data-number": number };
    block.append(element("span", attributes, ...parts));
    at++;
    yield;
  }
}

/** Returns the function of line numbers, counted from one, of a text of which some lines may be left out. */
function lineNumbers({ pieces = [[0, 0]] }: Details) {
  let next = 0;
  return (at: number) => {
    const isFirst = pieces[next]?.[0] === at;
    next += isFirst ? 1 : 0;
    const [start, number] = pieces[next - 1];
    return { number: number + at - start + 1, isAfterGap: isFirst && number > 0 };
  };
}

function segmentView(module: number, source: string, { from, to, marks }: Segment) {
  const text = source.slice(from, to);
  const mark = marks[marks.length - 1];
  if (!mark) {
    return characters(text);
  }
  const [, , row, kind] = mark;
  const rows = [...new Set(marks.map((each) => each[2]))].join(" ");
  const attributes = { class: `mark ${kind}`, "data-rows": rows, "data-kind": kind };
  if (row < 0) {
    return element("span", { ...attributes, title: "a syntax error" }, characters(text));
  }
  const title = kindNamed(kind).title;
  return element("a", { ...attributes, title, href: hashOf(module, row) }, characters(text));
}

function characters(text: string) {
  const fragment = document.createDocumentFragment();
  const isEnd = text.endsWith("\r\n");
  const parts = withControls(isEnd ? text.slice(0, -2) : text);
  for (const { text: part, name } of parts) {
    fragment.append(name ? element("span", { class: "control", "data-name": name }, part) : part);
  }
  if (isEnd) {
    fragment.append(element("span", { class: "return" }, "\r"), "\n");
  }
  return fragment;
}
