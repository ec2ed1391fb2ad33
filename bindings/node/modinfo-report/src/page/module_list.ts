/** The list of all modules by folder, of which only the visible part is made, and its filter. */

import { element } from "./elements.js";
import { type Matches, matchesOf } from "./filter.js";
import { type Folder, folders } from "./folders.js";
import { counted, hashOf, nameText } from "./pieces.js";
import { paths, report, visible } from "./report.js";

/** The height of a row, as in the style, and how many rows are made above and below the visible ones. */
const ROW = 22;
const BEYOND = 12;

export class ModuleList {
  #field = element("input", {
    type: "search", id: "filter", placeholder: "Filter modules", "aria-label": "Filter modules",
    autocomplete: "off", spellcheck: "false",
  });
  #count = element("p", { class: "shown", role: "status" });
  #rows = element("ul", { class: "rows" });
  #list = element("div", { class: "modules" }, this.#rows);
  /** The rows: each is a module, or `-1 - folder` above the modules of a folder. */
  #shown: number[] = [];
  /** For each module its row; -1 if it isn't shown. */
  #rowOf = new Int32Array(paths.length);
  #matches!: Matches;
  /** The module that the tab key goes to. */
  #tabbed: number | undefined;
  #open: number | undefined;
  #onFilter;
  #onOpen;
  readonly view;

  /** @param listeners.onOpen is called with the module that Enter opens */
  constructor({ onFilter, onOpen }: { onFilter: (matches: Matches) => void, onOpen: (module: number) => void }) {
    this.#onFilter = onFilter;
    this.#onOpen = onOpen;
    this.view = element("nav", { "aria-label": "modules" }, this.#field, this.#count, this.#list);
    this.#field.addEventListener("input", () => this.#filter());
    this.#field.addEventListener("keydown", (event) => this.#onFieldKey(event));
    this.#list.addEventListener("keydown", (event) => this.#onListKey(event));
    this.#list.addEventListener("scroll", () => this.#draw());
    new ResizeObserver(() => this.#draw()).observe(this.#list);
    this.#filter();
  }

  /** Goes to the field. */
  search() {
    this.#field.focus();
    this.#field.select();
  }

  /** @param module the one that is open */
  open(module: number | undefined) {
    if (module === this.#open) {
      return;
    }
    this.#open = module;
    this.#tabbed = this.#rowOf[module ?? -1] >= 0 ? module : this.#tabbed;
    this.#scrollTo(module ?? -1);
    this.#draw();
  }

  /** Shows the modules whose paths have each of the field's words. */
  #filter() {
    const matches = matchesOf(this.#field.value);
    this.#matches = matches;
    this.#shown = [];
    this.#rowOf.fill(-1);
    folders.forEach((folder) => this.#addRows(folder));
    this.#tabbed = this.#shown[1];
    const all = counted(paths.length, "module");
    this.#count.textContent = matches.isAll ? all : `${matches.count.toLocaleString("en")} of ${all}`;
    this.#rows.style.height = `${this.#shown.length * ROW}px`;
    this.#list.scrollTop = 0;
    this.#draw();
    this.#onFilter(matches);
  }

  /** Adds the rows of a folder's own modules. */
  #addRows({ index, modules }: Folder) {
    const rows = this.#shown;
    const start = rows.push(-1 - index);
    for (const module of modules) {
      if (this.#matches.isShown[module] === 1) {
        this.#rowOf[module] = rows.push(module) - 1;
      }
    }
    if (rows.length === start) {
      rows.pop();
    }
  }

  /** Makes the visible rows, and keeps the focus. */
  #draw() {
    const { scrollTop, clientHeight } = this.#list;
    const first = Math.max(0, Math.floor(scrollTop / ROW) - BEYOND);
    const end = Math.min(this.#shown.length, Math.ceil((scrollTop + clientHeight) / ROW) + BEYOND);
    const { activeElement } = document;
    const focused = this.#rows.contains(activeElement) ? (activeElement as HTMLElement).dataset.module : undefined;
    let position = this.#shown.slice(0, first).filter((shown) => shown >= 0).length;
    const items = this.#shown.slice(first, end).map((shown, at) => {
      position += shown >= 0 ? 1 : 0;
      const item = shown >= 0 ? this.#moduleRow(shown, position) : this.#headingRow(folders[-1 - shown]);
      item.style.top = `${(first + at) * ROW}px`;
      return item;
    });
    this.#rows.replaceChildren(...items);
    if (focused !== undefined) {
      this.#rows.querySelector<HTMLElement>(`[data-module="${focused}"]`)?.focus({ preventScroll: true });
    }
  }

  #moduleRow(module: number, position: number) {
    const attributes = { "aria-setsize": this.#matches.count, "aria-posinset": position };
    return element("li", attributes, this.#link(module));
  }

  #headingRow({ path, modules }: Folder) {
    const text = nameText(path === "" ? "./" : `${path}/`);
    const name = element("span", { class: "heading-name" }, element("bdi", {}, ...text));
    const heading = element("li", { class: "heading", title: visible(path) }, name);
    if (!this.#matches.isAll) {
      const count = modules.filter((module) => this.#matches.isShown[module] === 1).length;
      heading.append(element("span", { class: "count" }, `${count} of ${modules.length}`));
    }
    return heading;
  }

  #link(module: number) {
    const path = visible(paths[module]);
    const attributes = {
      href: hashOf(module), title: path, "aria-label": path, "data-module": module,
      tabindex: module === this.#tabbed ? "0" : "-1",
      "aria-current": module === this.#open ? "page" : undefined,
    };
    return element("a", attributes, ...nameText(report.modules[module]));
  }

  #scrollTo(module: number) {
    const row = this.#rowOf[module] ?? -1;
    if (row < 0) {
      return;
    }
    const { scrollTop, clientHeight } = this.#list;
    const [top, bottom] = [row * ROW, (row + 1) * ROW];
    if (top < scrollTop + ROW || bottom > scrollTop + clientHeight) {
      this.#list.scrollTop = top < scrollTop + ROW ? top - ROW : bottom - clientHeight;
    }
  }

  #onFieldKey(event: KeyboardEvent) {
    const first = this.#shown[1];
    if (event.key === "Escape") {
      this.#field.value = "";
      this.#filter();
    } else if (event.key === "ArrowDown" && first !== undefined) {
      event.preventDefault();
      this.#go(first);
    } else if (event.key === "Enter" && first !== undefined) {
      event.preventDefault();
      this.#onOpen(first);
    }
  }

  #onListKey(event: KeyboardEvent) {
    const at = this.#rowOf[Number((event.target as HTMLElement).dataset.module)];
    const page = Math.max(1, Math.floor(this.#list.clientHeight / ROW) - 1);
    const moves: Record<string, number> = {
      ArrowDown: 1, ArrowUp: -1, PageDown: page, PageUp: -page, Home: -Infinity, End: Infinity,
    };
    const move = moves[event.key];
    if (at === undefined || move === undefined) {
      return;
    }
    event.preventDefault();
    const next = this.#moduleFrom(Math.min(this.#shown.length - 1, Math.max(0, at + move)), Math.sign(move));
    if (next === undefined) {
      this.search();
    } else {
      this.#go(next);
    }
  }

  /** Returns the module of a row; of a heading, the module of the next row in a direction. */
  #moduleFrom(row: number, step: number): number | undefined {
    const isAboveAll = row === 0 && step < 0;
    const isHeading = this.#shown[row] < 0;
    return isHeading ? (isAboveAll ? undefined : this.#moduleFrom(row + step, step)) : this.#shown[row];
  }

  #go(module: number) {
    this.#tabbed = module;
    this.#scrollTo(module);
    this.#draw();
    this.#rows.querySelector<HTMLElement>(`[data-module="${module}"]`)?.focus({ preventScroll: true });
  }
}
