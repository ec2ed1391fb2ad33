/** All edges of a folder of any size, as a matrix: a mark is an edge from its row's module to its column's. */

import { element } from "./elements.js";
import { CYCLES, type KindCounts, hiddenKinds, kindsText, strongestKind } from "./graph_kinds.js";
import { shortLabel } from "./graph_layout.js";
import { legend } from "./graph_legend.js";
import { Mover, type Placing } from "./graph_move.js";
import { type Frame, crumbs, graphFrame, roomIn, showMoved } from "./graph_view.js";
import { type Band, type Mark, type Matrix, matrixOf } from "./matrix_order.js";
import { counted, hashOf, nameText } from "./pieces.js";
import { eachEdge, paths, report, visible } from "./report.js";
import { longList } from "./reveal.js";
import type { Matches } from "./filter.js";
import type { Folder } from "./folders.js";

/** Lengths at the scale 1: of a cell, and of the names before the rows and above the columns. */
const CELL = 14;
const NAME_ROOM = 150;

/** Pixels: the least cell with a name, the least mark, the least folder with a border and with a name. */
const LEAST_NAMED = 11;
const LEAST_MARK = 1.8;
const BORDERED = 5;
const TITLED = 15;

/** How far from a mark the pointer may be, in pixels, and how much of a faded mark is seen. */
const NEAR_MARK = 5;
const FADED = 0.12;

const MATRIX_HINT = "A mark is an edge from the module of its row to the module of its column. In a folder each " +
  "module is above those that it leads to, so marks below the diagonal lead back. A click on a mark opens its " +
  "line.";

type Pen = CanvasRenderingContext2D;

/** Where the matrix is in its box, and what is shown. */
type State = { at: Placing, matches?: Matches, pointed?: Mark };

/** Where and how the matrix is painted on its canvas, in pixels. */
interface Place {
  width: number;
  height: number;
  cell: number;
  left: number;
  top: number;
  colour: (name: string) => string;
  font: string;
}

/** @param isOwn whether its folders are left out */
export function matrixView(folder: Folder, isOwn: boolean = false): HTMLElement {
  const frame = graphFrame([crumbs(folder)]);
  const hint = element("p", { class: "hint" }, MATRIX_HINT);
  frame.bar.after(hint);
  requestAnimationFrame(() => {
    if (frame.view.isConnected) {
      showMatrix(frame, matrixOf(folder, isOwn), hint);
    }
  });
  return frame.view;
}

function showMatrix(frame: Frame, matrix: Matrix, hint: HTMLElement) {
  const { modules, marks } = matrix;
  const all = marks.flat();
  const [size, edges] = [counted(modules.length, "module"), counted(all.length, "edge")];
  const label = `matrix of ${size} and ${edges}`;
  const canvas = element("canvas", { role: "img", "aria-label": label });
  frame.box.style.height = `${roomIn(frame.box).height}px`;
  frame.box.replaceChildren(canvas);
  const state: State = { at: { x: 0, y: 0, scale: 1 } };
  const paint = painter(canvas, matrix, state);
  const side = NAME_ROOM + CELL * modules.length;
  const mover = new Mover(frame.box, { width: side, height: side }, (at) => paint({ at }));
  frame.bar.append(element("span", { class: "count" }, `${size}, ${edges}`));
  frame.box.before(legend({
    kinds: new Set(all.flatMap(({ kinds }) => [...kinds.keys()])), states: new Set(),
    cycles: CYCLES.filter((cycle) => all.some((mark) => mark.cycle === cycle)),
  }, () => paint({})));
  mover.fit();
  new ResizeObserver(() => paint({})).observe(canvas);
  listenToPointer(canvas, matrix, state, { paint, hint });
  showMoved(frame, mover, { onFilter: (matches) => paint({ matches }), onShown: () => paint({}) });
}

/** Returns a function that paints a matrix once before the next frame, with what has changed. */
function painter(canvas: HTMLCanvasElement, matrix: Matrix, state: State) {
  let isAsked = false;
  return (change: Partial<State>) => {
    Object.assign(state, change);
    if (!isAsked) {
      isAsked = true;
      requestAnimationFrame(() => {
        isAsked = false;
        paintMatrix(canvas, matrix, state);
      });
    }
  };
}

function paintMatrix(canvas: HTMLCanvasElement, matrix: Matrix, { at: { x, y, scale }, matches, pointed }: State) {
  const ratio = devicePixelRatio;
  const { clientWidth: width, clientHeight: height } = canvas;
  [canvas.width, canvas.height] = [width * ratio, height * ratio];
  const pen = canvas.getContext("2d") as Pen;
  pen.scale(ratio, ratio);
  const style = getComputedStyle(canvas);
  const place: Place = {
    width, height, cell: CELL * scale, left: x + NAME_ROOM * scale, top: y + NAME_ROOM * scale,
    colour: (name) => style.getPropertyValue(`--${name}`), font: style.fontFamily,
  };
  paintBands(pen, matrix, place);
  paintMarks(pen, matrix, place, matches);
  if (pointed) {
    paintCross(pen, pointed, place);
  }
  if (place.cell >= LEAST_NAMED) {
    paintNames(pen, matrix, place, matches);
  } else {
    paintTitles(pen, matrix, place);
  }
}

/** Paints the square of all, those of folders on the diagonal, and the diagonal. */
function paintBands(pen: Pen, { modules, bands }: Matrix, { cell, left, top, colour }: Place) {
  const side = modules.length * cell;
  pen.strokeStyle = colour("line");
  pen.strokeRect(left, top, side, side);
  for (const { start, end } of bands) {
    const size = (end - start) * cell;
    if (size >= BORDERED) {
      pen.fillStyle = colour("panel");
      pen.fillRect(left + start * cell, top + start * cell, size, size);
      pen.strokeRect(left + start * cell, top + start * cell, size, size);
    }
  }
  pen.beginPath();
  pen.moveTo(left, top);
  pen.lineTo(left + side, top + side);
  pen.strokeStyle = colour("quiet");
  pen.globalAlpha = 0.5;
  pen.stroke();
  pen.globalAlpha = 1;
}

function paintMarks(pen: Pen, { modules, marks }: Matrix, place: Place, matches: Matches | undefined) {
  const { cell, left, top, colour, height, width } = place;
  const size = Math.max(LEAST_MARK, cell * 0.78);
  const colours = new Map<string, string>(report.kinds.map(({ kind }) => [kind, colour(kind)]));
  const first = Math.max(0, Math.floor(-top / cell));
  const end = Math.min(modules.length, Math.ceil((height - top) / cell));
  const isShown = (row: number) => matches === undefined || matches.isShown[modules[row]] === 1;
  for (const { row, column, kinds, cycle } of marks.slice(first, end).flat()) {
    const across = left + column * cell;
    if (across > -cell && across < width && !isHidden(kinds)) {
      const isFaded = !(isShown(row) && isShown(column));
      const down = top + row * cell;
      const square = (side: number, fill: string, alpha: number) => {
        pen.globalAlpha = isFaded ? FADED : alpha;
        pen.fillStyle = fill;
        pen.fillRect(across + (cell - side) / 2, down + (cell - side) / 2, side, side);
      };
      if (cycle) {
        square(Math.max(cell, size + 3), colour(`cycle-${cycle}`), 0.45);
      }
      square(size, colours.get(strongestKind(kinds)) ?? "", 1);
    }
  }
  pen.globalAlpha = 1;
}

const isHidden = (kinds: KindCounts) => [...kinds.keys()].every((kind) => hiddenKinds.has(kind));

/** Paints lines through the row and the column of a mark. */
function paintCross(pen: Pen, { row, column }: Mark, { cell, left, top, width, height, colour }: Place) {
  pen.fillStyle = colour("quiet");
  pen.globalAlpha = 0.25;
  const thick = Math.max(1, cell);
  pen.fillRect(0, top + row * cell, width, thick);
  pen.fillRect(left + column * cell, 0, thick, height);
  pen.globalAlpha = 1;
}

/** Paints the modules' names before their rows and above their columns; where these are outside, at the border. */
function paintNames(pen: Pen, { modules }: Matrix, place: Place, matches: Matches | undefined) {
  const { cell, left, top, width, height, colour } = place;
  const [side, above] = [Math.max(left, NAME_ROOM), Math.max(top, NAME_ROOM)];
  pen.fillStyle = colour("page");
  pen.fillRect(0, 0, side - 2, height);
  pen.fillRect(0, 0, width, above - 2);
  pen.font = `12px ${place.font}`;
  pen.textAlign = "right";
  pen.textBaseline = "middle";
  modules.forEach((module, at) => {
    const name = shortLabel(visible(report.modules[module]), 22);
    const [down, across] = [top + (at + 0.5) * cell, left + (at + 0.5) * cell];
    pen.fillStyle = colour("text");
    pen.globalAlpha = matches === undefined || matches.isShown[module] === 1 ? 1 : FADED;
    if (down > above && down < height) {
      pen.fillText(name, side - 6, down);
    }
    if (across > side && across < width) {
      pen.save();
      pen.translate(across, above - 6);
      pen.rotate(Math.PI / 2);
      pen.fillText(name, 0, 0);
      pen.restore();
    }
  });
  pen.globalAlpha = 1;
}

/** Paints the names of folders before their rows, of folders in each other the innermost that are large enough. */
function paintTitles(pen: Pen, { bands }: Matrix, { cell, left, top, colour, font }: Place) {
  const isLarge = ({ start, end }: Band) => (end - start) * cell >= TITLED;
  const large = bands.filter(isLarge);
  const outer = new Set(large.map(({ folder }) => folder.parent));
  pen.font = `12px ${font}`;
  pen.textBaseline = "middle";
  pen.textAlign = "right";
  for (const { folder, start, end } of large.filter((band) => !outer.has(band.folder))) {
    const name = shortLabel(`${visible(folder.path)}/`, 30);
    const width = pen.measureText(name).width;
    const [right, middle] = [Math.max(left - 8, width + 8), top + ((start + end) / 2) * cell];
    pen.fillStyle = colour("page");
    pen.fillRect(right - width - 4, middle - 8, width + 8, 16);
    pen.fillStyle = colour("text");
    pen.fillText(name, right, middle);
  }
}

/** Shows what is under the pointer, and opens it on a click. */
function listenToPointer(
  canvas: HTMLCanvasElement, { modules, marks }: Matrix, state: State,
  { paint, hint }: { paint: (change: Partial<State>) => void, hint: HTMLElement },
) {
  const name = (row: number) => visible(paths[modules[row]]);
  canvas.addEventListener("pointermove", (event) => {
    const mark = markAt(canvas, marks, state.at, event);
    // What is below must not move away from the pointer.
    hint.style.height ||= `${hint.offsetHeight}px`;
    hint.textContent = mark ? `${name(mark.row)} → ${name(mark.column)}: ${kindsText(mark.kinds)}` : MATRIX_HINT;
    canvas.classList.toggle("pointing", mark !== undefined);
    paint({ pointed: mark });
  });
  canvas.addEventListener("pointerleave", () => {
    hint.textContent = MATRIX_HINT;
    hint.style.height = "";
    paint({ pointed: undefined });
  });
  canvas.addEventListener("click", (event) => {
    const mark = markAt(canvas, marks, state.at, event);
    if (mark) {
      location.hash = hashOf(modules[mark.row], rowOfEdge(modules[mark.row], modules[mark.column]));
    }
  });
}

/** Returns the mark that is nearest to a point, if it is near enough. */
function markAt(
  canvas: HTMLElement, marks: Mark[][], { x, y, scale }: Placing, { clientX, clientY }: MouseEvent,
): Mark | undefined {
  const { left, top } = canvas.getBoundingClientRect();
  const cell = CELL * scale;
  const cellAt = (length: number) => length / cell - NAME_ROOM / CELL;
  const [column, row] = [cellAt(clientX - left - x), cellAt(clientY - top - y)];
  const reach = Math.max(0.5, NEAR_MARK / cell);
  const [first, end] = [Math.max(0, Math.floor(row - reach)), Math.min(marks.length, Math.ceil(row + reach))];
  const far = (mark: Mark) => Math.max(Math.abs(mark.row + 0.5 - row), Math.abs(mark.column + 0.5 - column));
  const near = marks.slice(first, end).flat().filter((mark) => far(mark) <= reach && !isHidden(mark.kinds));
  return near.sort((one, other) => far(one) - far(other))[0];
}

/** Returns the row of the module's table that leads to another module. */
function rowOfEdge(from: number, to: number) {
  let found: number | undefined;
  eachEdge(from, (each, _, row) => {
    found ??= each === to ? row : undefined;
  });
  return found;
}

/**
 * A folder whose modules are too many for one drawing.
 * @param isOwn whether its folders are left out
 * @returns the matrix of all, and links to the graph of each module, those with most edges first
 */
export function largeFolderView(folder: Folder, isOwn: boolean = false): HTMLElement {
  const view = matrixView(folder, isOwn);
  const weight = (module: number) => report.edges[module].length + (report.entries.includes(module) ? 1e9 : 0);
  const byEdges = [...folder.modules].sort((one, other) => weight(other) - weight(one));
  const note = `The ${counted(folder.modules.length, "module")} of this folder are too many for one drawing. ` +
    "Each name below opens the graph of its neighbours.";
  const inside = (isOwn ? [] : folder.folders).map((each) => {
    const text = `${visible(each.name)}/ (${each.count.toLocaleString("en")})`;
    return element("a", { href: `#folder-${each.index}` }, text);
  });
  const choices = longList(byEdges, (module) => element("li", {}, nearLink(module)));
  choices.classList.add("choices");
  view.append(
    element("p", { class: "hint inside" }, note),
    element("p", { class: "hint inside" }, ...inside.flatMap((link) => [link, " "])), choices,
  );
  return view;
}

function nearLink(module: number) {
  const attributes = { href: `#near-${module}`, title: visible(paths[module]) };
  return element("a", attributes, ...nameText(shortLabel(report.modules[module])));
}
