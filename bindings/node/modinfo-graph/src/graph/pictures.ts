/** A graph in the languages of programs that draw, and how each kind of dependencies is drawn. */

export type Kind = "static" | "dynamic" | "type" | "require" | "jsdoc" | "pragma";
export type DrawnKind = { kind: Kind } & Record<"title" | "syntax" | "light" | "dark" | "dash" | "dot", string>;

/** The members of each kind in the order of the type, and the kinds in that of the legend. */
const ROWS: [Kind, ...string[]][] = [
  ["static", "static", "import, export .. from", "#0b5fb4", "#74b5ff", "", "style=solid"],
  ["dynamic", "dynamic", "import(..)", "#b33f00", "#ff9a5c", "8 4", "style=dashed"],
  [
    "type", "type", "import type, export type, types that a comment names", "#0b7150", "#54d3a4", "2 3",
    "style=dotted",
  ],
  ["require", "require", "require(..), import name = require(..)", "#7d5a00", "#e3b94d", "12 3 2 3", "style=bold"],
  [
    "jsdoc", "JSDoc", "@import and import(..) in a JSDoc comment", "#a3206f", "#ff8ac8", "5 2 1 2 1 2",
    'style=dashed, arrowhead="empty"',
  ],
  ["pragma", "pragma", "a pragma or a reference in a comment", "#5b4bb0", "#b3a6ff", "", "style=solid"],
];

/** Pragmas are marked in the text; their edges are those of types. */
export const KINDS: DrawnKind[] = ROWS.map(([kind, title, syntax, light, dark, dash, dot]) => {
  return { kind, title, syntax, light, dark, dash, dot };
});

/** Kinds of edges that are drawn without a name. */
const PLAIN = new Set(["static", "require"]);
/** Characters that Graphviz prints unchanged and that no label may have. */
const CONTROLS = /[\0-\x1f\x7f]/g;

const DOT_HEAD = `digraph modules {
  rankdir=LR;
  nodesep=0.16;
  ranksep=0.7;
  node [shape=box, style=rounded, fontname="Helvetica", fontsize=12, height=0.36, margin="0.1,0.04"];
  edge [arrowsize=0.7];
`;

/** Graphviz's attributes by the kinds of edges. */
const DOT_STYLES = new Map<string, string>(KINDS.map((each) => [each.kind, `color="${each.light}", ${each.dot}`]));
type Edge<Key> = { from: Key, to: Key, kind: string };

/** @returns in Graphviz's language; each edge of a kind between two modules is once in it */
export function dotText<Key>(keys: Key[], edges: Edge<Key>[], label: (key: Key) => string): string {
  const lines = linesOf(keys, edges, (name, key) => `${name} [label=${quoted(label(key))}];`, (from, to, kind) => {
    const style = DOT_STYLES.get(kind) ?? "style=dashed";
    return `${from} -> ${to} [${PLAIN.has(kind) ? style : `${style}, label=${kind}`}];`;
  });
  return `${DOT_HEAD}${[...new Set(lines)].join("\n")}\n}\n`;
}

/** Whether a text begins as those of `dotText` do. */
export const isDot = (text: string): boolean => text.startsWith(DOT_HEAD.slice(0, DOT_HEAD.indexOf("\n")));

/** @returns in the language of Mermaid */
export function mermaidText<Key>(keys: Key[], edges: Edge<Key>[], label: (key: Key) => string): string {
  const lines = linesOf(keys, edges, (name, key) => `${name}["${mermaidLabel(label(key))}"]`, (from, to, kind) => {
    return `${from} ${PLAIN.has(kind) ? "-->" : `-. ${kind} .->`} ${to}`;
  });
  return `flowchart LR\n${lines.join("\n")}\n`;
}

/** The lines of modules and edges, by their names in a picture. */
function linesOf<Key>(
  keys: Key[], edges: Edge<Key>[], ofModule: (name: string, key: Key) => string,
  ofEdge: (from: string | undefined, to: string | undefined, kind: string) => string,
): string[] {
  const names = new Map(keys.map((key, number) => [key, `m${number}`]));
  return [
    ...keys.map((key) => ofModule(String(names.get(key)), key)),
    ...edges.map(({ from, to, kind }) => ofEdge(names.get(from), names.get(to), kind)),
  ].map((line) => `  ${line}`);
}

/** Quotes a text as a label, in which Graphviz reads backslashes and entities of HTML. */
export function quoted(text: string): string {
  return `"${text.replace(CONTROLS, "\ufffd").replace(/[\\"]/g, "\\$&").replace(/&/g, "&amp;")}"`;
}

/** A text in which nothing is markup. */
const mermaidLabel = (text: string) => text.replace(/[^\w./@ -]/gu, (each) => `#${each.codePointAt(0)};`);
