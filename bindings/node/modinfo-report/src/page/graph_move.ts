/** Moves a drawing in its box: by dragging, the wheel, two fingers, keys and buttons. */

import { element } from "./elements.js";

/** Scales: of one step of a key and of the wheel, the least and the largest, and the largest fit. */
const STEP = 1.25;
const WHEEL = 0.0016;
const LEAST = 0.05;
const LARGEST = 4;
const FITTING = 1.1;

/** Pixels by which an arrow key moves a drawing, and after which a pointer drags it. */
const STRIDE = 60;
const DRAG = 4;

/** Pixels around a drawing that fits its box. */
const AROUND = 12;

interface Point {
  x: number;
  y: number;
}

export interface Size {
  width: number;
  height: number;
}

/** Where a drawing is in its box. */
export interface Placing extends Point {
  scale: number;
}

export class Mover {
  #box;
  #size;
  #onMoved;
  #at = { x: 0, y: 0, scale: 1 };
  /** The last position of each pointer that is down. */
  #pointers = new Map<number, Point>();
  #dragged = false;
  #isFitted = true;

  /** @param size of what is moved in it */
  constructor(box: HTMLElement, size: Size, onMoved: (at: Placing) => void) {
    this.#box = box;
    this.#size = size;
    this.#onMoved = onMoved;
    box.addEventListener("pointerdown", (event) => this.#onDown(event));
    box.addEventListener("pointermove", (event) => this.#onMove(event));
    for (const name of ["pointerup", "pointercancel", "pointerleave"] as const) {
      box.addEventListener(name, (event) => this.#onUp(event));
    }
    box.addEventListener("click", (event) => this.#onClick(event), { capture: true });
    box.addEventListener("wheel", (event) => this.#onWheel(event), { passive: false });
    box.addEventListener("dragstart", (event) => event.preventDefault());
    new ResizeObserver(() => this.#isFitted && this.fit()).observe(box);
  }

  get scale() {
    return this.#at.scale;
  }

  /** Shows the whole drawing, as large as both sides of the box allow. */
  fit() {
    const { clientWidth, clientHeight } = this.#box;
    const scale = this.#fitScale();
    this.#put({
      scale,
      x: (clientWidth - this.#size.width * scale) / 2,
      y: (clientHeight - this.#size.height * scale) / 2,
    });
    this.#isFitted = true;
  }

  /**
   * @param factor above 1 to make the drawing larger
   * @param point of the box, at which the drawing stays; else the middle
   */
  zoom(factor: number, point: Point = { x: this.#box.clientWidth / 2, y: this.#box.clientHeight / 2 }) {
    const { x, y, scale } = this.#at;
    const least = Math.min(LEAST, this.#fitScale());
    const next = Math.min(LARGEST, Math.max(least, scale * factor));
    const move = (from: number, middle: number) => middle - (middle - from) * (next / scale);
    this.#put({ scale: next, x: move(x, point.x), y: move(y, point.y) });
  }

  pan(right: number, down: number) {
    this.#put({ ...this.#at, x: this.#at.x + right, y: this.#at.y + down });
  }

  /** Moves the drawing until a part of it is seen. */
  show(part: Element | null) {
    if (!part) {
      return;
    }
    const [inner, outer] = [part.getBoundingClientRect(), this.#box.getBoundingClientRect()];
    const into = (low: number, high: number, from: number, to: number) => {
      return Math.max(0, from + AROUND - low) - Math.max(0, high - to + AROUND);
    };
    const right = into(inner.left, inner.right, outer.left, outer.right);
    const down = into(inner.top, inner.bottom, outer.top, outer.bottom);
    if (right !== 0 || down !== 0) {
      this.pan(right, down);
    }
  }

  /** @returns whether the key moves the drawing */
  onKey({ key }: KeyboardEvent): boolean {
    const acts: Record<string, () => void> = {
      "+": () => this.zoom(STEP), "=": () => this.zoom(STEP), "-": () => this.zoom(1 / STEP),
      0: () => this.fit(),
      ArrowLeft: () => this.pan(STRIDE, 0), ArrowRight: () => this.pan(-STRIDE, 0),
      ArrowUp: () => this.pan(0, STRIDE), ArrowDown: () => this.pan(0, -STRIDE),
    };
    acts[key]?.();
    return key in acts;
  }

  buttons(): HTMLElement {
    return element(
      "span", { class: "zoom" },
      moveButton("−", "smaller (key -)", () => this.zoom(1 / STEP)),
      moveButton("+", "larger (key +)", () => this.zoom(STEP)),
      moveButton("Fit", "show all of it (key 0)", () => this.fit()),
    );
  }

  #fitScale() {
    const { clientWidth: width, clientHeight: height } = this.#box;
    return fitScale(this.#size, { width, height });
  }

  #put(at: Placing) {
    this.#at = at;
    this.#isFitted = false;
    this.#onMoved(at);
  }

  #pointOf({ clientX, clientY }: MouseEvent): Point {
    const { left, top } = this.#box.getBoundingClientRect();
    return { x: clientX - left, y: clientY - top };
  }

  #onDown(event: PointerEvent) {
    if (event.button === 0) {
      this.#pointers.set(event.pointerId, this.#pointOf(event));
      this.#dragged = this.#pointers.size > 1;
    }
  }

  #onMove(event: PointerEvent) {
    const before = this.#pointers.get(event.pointerId);
    const point = this.#pointOf(event);
    if (!before || (!this.#dragged && distance(before, point) < DRAG)) {
      return;
    }
    if (!this.#dragged) {
      this.#dragged = true;
      this.#box.setPointerCapture(event.pointerId);
      this.#box.classList.add("dragging");
    }
    const [other] = [...this.#pointers].filter(([id]) => id !== event.pointerId).map(([, at]) => at);
    this.#pointers.set(event.pointerId, point);
    if (other === undefined) {
      this.pan(point.x - before.x, point.y - before.y);
    } else {
      this.zoom(distance(other, point) / Math.max(1, distance(other, before)), middlePoint(other, point));
    }
  }

  #onUp({ pointerId, type }: PointerEvent) {
    if (type !== "pointerleave" || !this.#dragged) {
      this.#pointers.delete(pointerId);
      this.#box.classList.remove("dragging");
    }
  }

  /** A click that ends a drag opens nothing. */
  #onClick(event: MouseEvent) {
    if (this.#dragged) {
      event.preventDefault();
      event.stopPropagation();
      this.#dragged = false;
    }
  }

  /** If the whole drawing is seen, a wheel that would make it smaller scrolls the page. */
  #onWheel(event: WheelEvent) {
    const isSmaller = event.deltaY > 0;
    if (isSmaller && !event.ctrlKey && this.#at.scale <= this.#fitScale()) {
      return;
    }
    event.preventDefault();
    const lines = event.deltaMode === WheelEvent.DOM_DELTA_LINE ? 30 : 1;
    const strength = event.ctrlKey ? 6 : 1;
    this.zoom(Math.exp(-event.deltaY * lines * strength * WHEEL), this.#pointOf(event));
  }
}

/** The scale at which all of a drawing of a size is seen in the room of its box. */
export function fitScale(size: Size, room: Size): number {
  const across = (room.width - 2 * AROUND) / Math.max(1, size.width);
  const down = (room.height - 2 * AROUND) / Math.max(1, size.height);
  return Math.max(1e-4, Math.min(FITTING, across, down));
}

/** Returns the height of a drawing in a box, with the space around it. */
export const heightFor = (size: Size, room: Size) => size.height * fitScale(size, room) + 2 * AROUND;

const distance = (one: Point, other: Point) => Math.hypot(one.x - other.x, one.y - other.y);

function middlePoint(one: Point, other: Point): Point {
  return { x: (one.x + other.x) / 2, y: (one.y + other.y) / 2 };
}

function moveButton(text: string, title: string, act: () => void) {
  const made = element("button", { type: "button", title, "aria-label": title }, text);
  made.addEventListener("click", act);
  return made;
}
