/** Long lists, whose items are made when they are seen. */

import { element } from "./elements.js";
import { counted } from "./pieces.js";

/** Count of items that are shown at first, and that are added when the end is seen. */
const SHOWN = 50;
const ADDED = 100;

/**
 * Makes a list of which the first items are shown; a button shows the others, in a box that scrolls.
 * @param view makes a list item
 * @param tag of the list
 */
export function longList<Item>(items: Item[], view: (item: Item) => HTMLElement, tag: "ul" | "ol" = "ul") {
  const list = element(tag, {}, ...items.slice(0, SHOWN).map(view));
  if (items.length <= SHOWN) {
    return list;
  }
  const button = element("button", { type: "button" }, `Show all ${counted(items.length, "item")}`);
  const box = element("div", { class: "long" }, list, button);
  button.addEventListener("click", () => {
    button.remove();
    box.classList.add("open");
    revealAll(box, list, items.slice(SHOWN).values(), view);
  });
  return box;
}

/** Adds items each time the end of the list is seen. */
function revealAll<Item>(
  box: HTMLElement, list: HTMLElement, rest: IterableIterator<Item>, view: (item: Item) => HTMLElement,
) {
  const end = element("div", { class: "end" });
  box.append(end);
  const add = () => {
    for (let added = 0; added < ADDED; added++) {
      const { done, value } = rest.next();
      if (done) {
        observer.disconnect();
        end.remove();
        return;
      }
      list.append(view(value));
    }
    // An observer reports changes only: if the end is still seen, it has to observe anew.
    observer.unobserve(end);
    observer.observe(end);
  };
  const options = { root: box, rootMargin: "400px" };
  const observer = new IntersectionObserver(([{ isIntersecting }]) => isIntersecting && add(), options);
  observer.observe(end);
}
