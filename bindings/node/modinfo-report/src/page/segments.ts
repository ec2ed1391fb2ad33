/** Cuts a module's text into lines, and each line where marks begin and end. */

import type { MarkDetails } from "../page_data.js";

export interface Segment {
  /** In UTF-16 units */
  from: number;
  to: number;
  /** Around it, the innermost last */
  marks: MarkDetails[];
}

/** For each line its segments, with its line feed. The marks are sorted by where they begin. */
export function* lineSegments(text: string, marks: MarkDetails[]): Generator<Segment[]> {
  let next = 0;
  let open: MarkDetails[] = [];
  for (let from = 0; from < text.length || next < marks.length; ) {
    const feed = text.indexOf("\n", from);
    const to = feed < 0 ? text.length : feed + 1;
    const isLast = feed < 0;
    while (next < marks.length && (marks[next][0] < to || isLast)) {
      open.push(marks[next++]);
    }
    yield segmentsOf(from, to, open);
    open = open.filter((mark) => mark[1] > to);
    from = to;
    if (isLast) {
      return;
    }
  }
}

/** Returns the segments of a line. */
function segmentsOf(from: number, to: number, marks: MarkDetails[]) {
  const ends = marks.flatMap(([start, end]) => [start, end]).filter((at) => at > from && at < to);
  const cuts = [...new Set([from, ...ends, to])].sort((one, other) => one - other);
  const segments: Segment[] = [];
  let next = 0;
  let around: MarkDetails[] = [];
  cuts.forEach((start, at) => {
    while (next < marks.length && marks[next][0] <= start) {
      around.push(marks[next++]);
    }
    const empty = around.filter((mark) => mark[0] === start && mark[1] === start);
    around = around.filter((mark) => mark[1] > start);
    if (empty.length > 0) {
      segments.push({ from: start, to: start, marks: empty });
    }
    if (at + 1 < cuts.length) {
      segments.push({ from: start, to: cuts[at + 1], marks: [...around].sort(byLength) });
    }
  });
  return segments;
}

/** Sorts the longest first. */
const byLength = (one: MarkDetails, other: MarkDetails) => other[1] - other[0] - (one[1] - one[0]);
