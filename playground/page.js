/* The page: a text, marks in it, and what the worker finds in the text. */
"use strict";

const MEDIA_TYPES = ["JavaScript", "Jsx", "Mjs", "Cjs", "TypeScript", "Mts", "Cts", "Dts", "Dmts", "Dcts", "Tsx"];
/** The classes of marks, with the names of the kinds in each; the class of all others is `import`. */
const CLASSES = {
  import: "import, export", type: "types alone", dynamic: "import(..)", require: "require(..)",
  comment: "a comment names it",
};
const MEMBERS = {
  typesSpecifier: "@ts-types", selfTypesSpecifier: "@ts-self-types", jsxImportSource: "@jsxImportSource",
  jsxImportSourceTypes: "@jsxImportSourceTypes", sourceMapUrl: "sourceMappingURL",
};
/** How far a label is from the pointer, in pixels. */
const APART = 16;

/** @param {string} id */
const byId = (id) => /** @type {any} */ (document.getElementById(id));
const [text, marks, status, found, json, label] =
  ["text", "marks", "status", "found", "json", "label"].map(byId);
const [specifier, mediaType, example] = ["specifier", "media-type", "example"].map(byId);
const examples = JSON.parse(byId("examples").textContent);
const worker = new Worker(URL.createObjectURL(new Blob([byId("worker").textContent], { type: "text/javascript" })));

/**
 * @param {string} name of an element
 * @param {object} members
 * @param {(Node | string)[]} children
 */
function element(name, members = {}, ...children) {
  const made = Object.assign(document.createElement(name), members);
  made.append(...children);
  return made;
}

/** What is found, in the order of the text. @param {any} info a `ModuleInfo` */
function foundIn(info) {
  const items = [];
  const add = (kind, name, range, group = groupOf(kind)) => range && items.push({ kind, name, range, group });
  for (const each of info.dependencies ?? []) {
    const kind = each.kind ?? "import()";
    add(each.type === "dynamic" && kind !== "require" ? "import()" : kind, nameOf(each), each.specifierRange ?? each.argumentRange);
    add(MEMBERS.typesSpecifier, each.typesSpecifier?.text, each.typesSpecifier?.range, "comment");
  }
  for (const { type, text: name, range } of info.tsReferences ?? []) {
    add(`reference ${type}`, name, range, "comment");
  }
  for (const { text: name, range, ...each } of info.jsdocImports ?? []) {
    add("JSDoc", name, range ?? each.specifierRange, "comment");
  }
  for (const [member, kind] of Object.entries(MEMBERS)) {
    add(kind, info[member]?.text, info[member]?.range, "comment");
  }
  return items.sort((one, other) => one.range[0][0] - other.range[0][0] || one.range[0][1] - other.range[0][1]);
}

/** @param {string} kind */
function groupOf(kind) {
  if (kind === "require" || kind.endsWith("Equals")) {
    return "require";
  }
  return kind === "import()" ? "dynamic" : /type|augmentation/i.test(kind) ? "type" : "import";
}

/** @param {any} dependency */
function nameOf({ specifier: name, argument }) {
  if (name !== undefined || typeof argument === "string") {
    return name ?? argument;
  }
  return argument?.map(({ type, value }) => (type === "string" ? value : "*")).join("") ?? "unknown";
}

/** Offsets of positions, which count code points. @param {string} source */
function offsetsIn(source) {
  const lines = source.split("\n");
  const starts = lines.reduce((all, line) => [...all, all[all.length - 1] + line.length + 1], [0]);
  return ([line, character]) => starts[line] + [...lines[line] ?? ""].slice(0, character).join("").length;
}

/** @param {{ from: number, to: number, group: string, title: string }[]} ranges */
function drawMarks(source, ranges) {
  const parts = [];
  let at = 0;
  for (const { from, to, group, title } of ranges.filter((each) => each.to > each.from)) {
    if (from >= at) {
      const mark = element("mark", { className: group }, source.slice(from, to));
      mark.dataset.title = title;
      parts.push(source.slice(at, from), mark);
      at = to;
    }
  }
  marks.replaceChildren(...parts, `${source.slice(at)}\n`);
  scrollMarks();
}

function scrollMarks() {
  marks.scrollTop = text.scrollTop;
  marks.scrollLeft = text.scrollLeft;
}

/** @param {any} info */
function show(info) {
  const source = text.value;
  const offsetOf = offsetsIn(source);
  const items = foundIn(info).map((item) => ({ ...item, from: offsetOf(item.range[0]), to: offsetOf(item.range[1]) }));
  drawMarks(source, items.map((item) => ({ ...item, title: `${item.kind}: ${item.name}` })));
  found.replaceChildren(...items.map(({ kind, name, group, range: [[line, character]], from, to }) => {
    const button = element("button", { type: "button", onclick: () => select(from, to) }, `${line + 1}:${character + 1}`);
    button.setAttribute("aria-label", `go to line ${line + 1}, character ${character + 1}`);
    return element("tr", {}, element("td", {}, element("span", { className: `kind ${group}` }, kind)),
      element("td", {}, String(name)), element("td", {}, button));
  }));
  json.textContent = JSON.stringify(info, undefined, 2)
    .replace(/\[\s+(\d+),\s+(\d+)\s+\]/g, "[$1, $2]").replace(/\[\s+(\[[\d, ]+\]),\s+(\[[\d, ]+\])\s+\]/g, "[$1, $2]");
  const more = info.script ? ", and nothing makes it an ES module" : "";
  say(`${items.length === 1 ? "one name" : `${items.length} names`} found${more}`);
}

/** @param {any} fault */
function showFault({ fault, line, column, message }) {
  specifier.setAttribute("aria-invalid", String(fault === "Specifier"));
  if (line === undefined) {
    drawMarks(text.value, []);
    say(message, true);
    return;
  }
  const source = text.value;
  const at = offsetsIn(source)([line - 1, column - 1]);
  const from = Math.max(0, at < source.length ? at : source.length - 1);
  drawMarks(source, [{ from, to: from + 1, group: "fault", title: message }]);
  say(`line ${line}, character ${column}: ${message}`, true);
}

/** @param {string} message @param {boolean} [isFault] */
function say(message, isFault = false) {
  status.textContent = message;
  status.classList.toggle("fault", isFault);
}

/** @param {number} from @param {number} to */
function select(from, to) {
  text.focus();
  text.setSelectionRange(from, to);
}

let sent = 0;
let isBusy = false;
let isWaiting = false;

/** Hands the text to the worker, once that has nothing to do. */
function update() {
  isWaiting = isBusy;
  if (!isBusy) {
    isBusy = true;
    sent += 1;
    worker.postMessage({ number: sent, text: text.value, specifier: specifier.value, mediaType: mediaType.value });
  }
}

worker.onmessage = ({ data }) => {
  if (data.about) {
    byId("about").textContent = data.about;
    return;
  }
  isBusy = false;
  if (isWaiting) {
    update();
    return;
  }
  specifier.removeAttribute("aria-invalid");
  document.body.dataset.shown = String(data.number);
  if (data.info) {
    show(data.info);
  } else {
    showFault(data);
  }
};
worker.onerror = ({ message }) => say(`the module doesn't run here: ${message}`, true);

/** The text after the `#` of a link. */
function linked() {
  const bytes = new TextEncoder().encode(JSON.stringify([text.value, specifier.value, mediaType.value]));
  return btoa(String.fromCharCode(...bytes)).replace(/\+/g, "-").replace(/\//g, "_").replace(/=+$/, "");
}

/** @param {string} hash @returns {string[] | undefined} */
function fromLink(hash) {
  try {
    const characters = atob(hash.slice(1).replace(/-/g, "+").replace(/_/g, "/"));
    return JSON.parse(new TextDecoder().decode(Uint8Array.from(characters, (each) => each.charCodeAt(0))));
  } catch {
    return undefined;
  }
}

/** @param {string[]} parts the text, its URL and its media type */
function put([source, url, type]) {
  [text.value, specifier.value, mediaType.value] = [source, url, type ?? ""];
  update();
}

text.addEventListener("input", update);
text.addEventListener("scroll", scrollMarks);
specifier.addEventListener("input", update);
mediaType.addEventListener("change", update);
example.addEventListener("change", () => put(examples[example.selectedIndex].parts));
byId("link").addEventListener("click", async () => {
  location.hash = linked();
  await navigator.clipboard?.writeText(location.href).catch(() => {});
  say("the address of this page holds the text, and is copied where the browser allows it");
});

/** A label for what is below the pointer; marks are behind the text, so they get no events. */
text.addEventListener("mousemove", ({ clientX, clientY }) => {
  const under = [...marks.querySelectorAll("mark")].find((mark) => [...mark.getClientRects()].some((box) =>
    clientX >= box.left && clientX <= box.right && clientY >= box.top && clientY <= box.bottom));
  label.hidden = !under;
  label.textContent = under?.dataset.title ?? "";
  Object.assign(label.style, { left: `${clientX + APART}px`, top: `${clientY + APART}px` });
});
text.addEventListener("mouseleave", () => {
  label.hidden = true;
});

mediaType.append(...MEDIA_TYPES.map((name) => element("option", {}, name)));
example.append(...examples.map(({ name }) => element("option", {}, name)));
byId("legend").append(...Object.entries(CLASSES).map(([name, says]) => element("li", { className: name }, says)));
put(fromLink(location.hash) ?? examples[0].parts);
