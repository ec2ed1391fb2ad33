/** Makes elements. A text is never read as markup. */

const SVG = "http://www.w3.org/2000/svg";

/** Undefined and false ones are left out. */
type Attributes = Record<string, string | number | boolean | undefined>;
type Child = Node | string | undefined;

export function element<Name extends keyof HTMLElementTagNameMap>(
  name: Name, attributes: Attributes = {}, ...children: Child[]
): HTMLElementTagNameMap[Name] {
  return furnished(document.createElement(name), attributes, children);
}

export function drawn<Name extends keyof SVGElementTagNameMap>(
  name: Name, attributes: Attributes = {}, ...children: Child[]
): SVGElementTagNameMap[Name] {
  return furnished(document.createElementNS(SVG, name), attributes, children);
}

function furnished<Made extends Element>(made: Made, attributes: Attributes, children: Child[]): Made {
  for (const [name, value] of Object.entries(attributes)) {
    if (value !== undefined && value !== false) {
      made.setAttribute(name, value === true ? "" : String(value));
    }
  }
  made.append(...children.flatMap((child) => child ?? []));
  return made;
}

/** Returns the text of the element with an id, which the page has. */
export const textOf = (id: string): string => document.getElementById(id)?.textContent ?? "";

/** Returns a promise for the next task, before which the browser can draw and handle keys. */
export const nextTask = (): Promise<void> => new Promise((resolve) => setTimeout(resolve));
