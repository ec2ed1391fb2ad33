/** Puts rectangles beside and below one another. */

export interface Placed {
  /** Of the rectangles, upper left */
  corners: [number, number][];
  width: number;
  height: number;
}

/**
 * Returns a grid with the narrowest columns, filled row by row in the order of the rectangles.
 * @param room the most width, if the widest rectangle fits
 */
export function gridOf(sizes: [number, number][], { gap, width }: { gap: number, width: number }): Placed {
  let best = columnsOf(sizes, 1, gap);
  for (let columns = 2; columns <= sizes.length; columns++) {
    const next = columnsOf(sizes, columns, gap);
    if (next.width > width) {
      break;
    }
    best = next;
  }
  return best;
}

function columnsOf(sizes: [number, number][], columns: number, gap: number): Placed {
  const widths: number[] = new Array(Math.min(columns, sizes.length)).fill(0);
  sizes.forEach(([width], at) => (widths[at % columns] = Math.max(widths[at % columns], width)));
  const lefts = widths.map((_, at) => widths.slice(0, at).reduce((sum, width) => sum + width + gap, 0));
  const high = sizes.reduce((most, [, height]) => Math.max(most, height), 0);
  const rows = Math.ceil(sizes.length / columns);
  return {
    corners: sizes.map((_, at) => [lefts[at % columns], Math.floor(at / columns) * (high + gap)]),
    width: widths.reduce((sum, width) => sum + width + gap, -gap),
    height: rows * (high + gap) - gap,
  };
}

/** Puts rectangles on shelves, the highest first. `room` is the width of the whole for a height of 1. */
export function shelvesOf(sizes: [number, number][], { gap, aspect }: { gap: number, aspect: number }): Placed {
  const area = sizes.reduce((sum, [width, height]) => sum + (width + gap) * (height + gap), 0);
  const widest = sizes.reduce((most, [width]) => Math.max(most, width), 0);
  const room = Math.max(widest, Math.sqrt(area * aspect));
  const order = [...sizes.keys()].sort((one, other) => sizes[other][1] - sizes[one][1]);
  const corners: [number, number][] = [];
  let [x, y, high, width] = [0, 0, 0, 0];
  for (const at of order) {
    const [wide, tall] = sizes[at];
    if (x > 0 && x + wide > room) {
      [x, y, high] = [0, y + high + gap, 0];
    }
    corners[at] = [x, y];
    high = Math.max(high, tall);
    width = Math.max(width, x + wide);
    x += wide + gap;
  }
  return { corners, width, height: y + high };
}
