/** Edges as curves, in the form of SVG's paths. */

export type Point = { x: number, y: number };

const rounded = (length: number) => Math.round(length * 10) / 10;

const halfway = (one: Point, other: Point): Point => ({ x: (one.x + other.x) / 2, y: (one.y + other.y) / 2 });

/** Returns a curve that begins at the first point, ends at the last one, and bends near the others. */
export function curveOf(points: Point[]): string {
  const at = ({ x, y }: Point) => `${rounded(x)} ${rounded(y)}`;
  const bends = bendsOf(points).map(({ bend, end }) => `Q${at(bend)} ${at(end)}`);
  return `M${at(points[0])}${bends.length > 0 ? bends.join("") : `L${at(points[points.length - 1])}`}`;
}

/** Returns the bends of a curve, each with its start and end. */
function bendsOf(points: Point[]) {
  const inner = points.slice(1, -1);
  return inner.map((bend, index) => ({
    bend,
    start: index === 0 ? points[0] : halfway(inner[index - 1], bend),
    end: index === inner.length - 1 ? points[points.length - 1] : halfway(bend, inner[index + 1]),
  }));
}

/** How far along a bend a count may be, the best place first. */
const PLACES = [0.5, 0.35, 0.65, 0.2, 0.8];

/** Returns points of the curve's bend that is nearest to a point, the middle of the bend first. */
export function pointsOnCurve(points: Point[], near: Point): Point[] {
  const far = ({ bend: { x, y } }: { bend: Point }) => Math.hypot(x - near.x, y - near.y);
  const [nearest] = bendsOf(points).sort((one, other) => far(one) - far(other));
  return nearest ? PLACES.map((part) => alongBend(nearest, part)) : [near];
}

/** The point of a quadratic curve at a part from 0 at the start to 1 at the end. */
function alongBend({ start, bend, end }: { start: Point, bend: Point, end: Point }, part: number): Point {
  const rest = 1 - part;
  const at = (axis: "x" | "y") => {
    return rest * rest * start[axis] + 2 * part * rest * bend[axis] + part * part * end[axis];
  };
  return { x: at("x"), y: at("y") };
}

/** The size of a count, as it is drawn: of its border, and of a digit. */
const DRAWN = { border: 8, digit: 7, height: 16 };

/** The first point at which a count, which is added to the counts, overlaps none of them, else the first. */
export function placeOfCount(points: Point[], count: number, counts: { x: number, y: number, width: number }[]) {
  const width = DRAWN.border + DRAWN.digit * count.toLocaleString("en").length;
  const isFree = ({ x, y }: Point) => counts.every((other) => {
    return Math.abs(other.x - x) >= (other.width + width) / 2 || Math.abs(other.y - y) >= DRAWN.height;
  });
  const place = points.find(isFree) ?? points[0];
  counts.push({ ...place, width });
  return place;
}
