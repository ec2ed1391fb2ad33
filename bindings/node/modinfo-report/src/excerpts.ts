/** Excerpts of the longest texts, which keep a page small: the lines around their marks. */

import type { Mark } from "./marks.js";

export interface Text {
  /** None if even the lines around its marks are too long */
  source?: string;
  marks: Mark[];
  /**
   * Where lines are left out: for each piece the line of `source` at which it begins, and that line's number in
   * the file, both from zero.
   */
  pieces?: [number, number][];
  /** Count of the file's lines, if some are left out */
  lines?: number;
}

/** The most bytes of all texts of a page, in UTF-8, and of one of which lines are left out. */
const MOST = 24_000_000;
const MOST_OF_EXCERPT = 100_000;

/** Count of the lines that are kept before a mark and after it. */
const AROUND = 3;

/** @returns the modules, some with an excerpt of their text */
export function withinBounds<Module extends Text>(modules: Module[], most: number = MOST): (Module & Text)[] {
  const sizes = modules.map(({ source = "" }) => Buffer.byteLength(source));
  const bySize = [...sizes.keys()].sort((one, other) => sizes[other] - sizes[one]);
  const kept = [...modules];
  let total = sizes.reduce((sum, size) => sum + size, 0);
  for (const at of bySize) {
    if (total <= most) {
      break;
    }
    kept[at] = { ...modules[at], ...shortened(modules[at]) };
    total += Buffer.byteLength(kept[at].source ?? "") - sizes[at];
  }
  return kept;
}

function shortened({ source = "", marks }: Text) {
  const excerpt = excerptOf(source, marks);
  const isShort = Buffer.byteLength(excerpt.source ?? "") <= MOST_OF_EXCERPT;
  return isShort ? excerpt : { source: undefined, marks: [], lines: excerpt.lines };
}

export function excerptOf(source: string, marks: Mark[]): Text {
  const starts = [0, ...[...source.matchAll(/\n/g)].map(({ index = 0 }) => index + 1)];
  const pieces: [number, number][] = [];
  const texts = [];
  const moved = [];
  let length = 0;
  let count = 0;
  for (const [first, last] of rangesOf(starts, marks)) {
    const from = starts[first];
    const to = starts[last + 1] ?? source.length;
    for (const mark of marks.filter((each) => each.from >= from && each.to <= to)) {
      moved.push({ ...mark, from: mark.from - from + length, to: mark.to - from + length });
    }
    pieces.push([count, first]);
    texts.push(source.slice(from, to));
    count += last + 1 - first;
    length += to - from;
  }
  return { source: texts.join(""), marks: moved, pieces, lines: starts.length };
}

/** The first and last lines around sorted marks; ranges that touch are one. `starts` are the lines'. */
function rangesOf(starts: number[], marks: Mark[]): [number, number][] {
  const ranges: [number, number][] = [];
  let line = 0;
  for (const { from, to } of marks.length > 0 ? marks : [{ from: 0, to: 0 }]) {
    while (starts[line + 1] <= from) {
      line++;
    }
    let end = line;
    while (starts[end + 1] < to) {
      end++;
    }
    const [first, last] = [Math.max(0, line - AROUND), Math.min(starts.length - 1, end + AROUND)];
    const before = ranges[ranges.length - 1];
    if (before && first <= before[1] + 1) {
      before[1] = Math.max(before[1], last);
    } else {
      ranges.push([first, last]);
    }
  }
  return ranges;
}
