/** The page, in one file that loads nothing. */

import { createHash } from "node:crypto";
import { deflateSync } from "node:zlib";

import { readOwnFile } from "modinfo-graph/internal/files/program.js";
import { KINDS } from "modinfo-graph/internal/graph/pictures.js";
import type { Library } from "./libraries.js";
import type { Details, Index } from "./page_data.js";

const IMPORT = /^import [^;]* from "\.\/(\w+\.js)";\n/gm;

/** The HTML of a page, in which each part is compressed. */
export function pageOf(index: Omit<Index, "absent">, parts: Iterable<Details[]>, libraries: Library[]): string {
  const [layout, sizes] = libraries;
  const script = `${sizes.text ? `${sizes.text}\n` : ""}${scriptOf("main.js")}`;
  const style = `${colours()}${readOwnFile(new URL("../style.css", import.meta.url))}`;
  const policy = [
    "default-src 'none'", `script-src '${hash(script)}'`, `style-src '${hash(style)}'`,
    "worker-src blob:", "require-trusted-types-for 'script'", "trusted-types layout",
    "base-uri 'none'", "form-action 'none'",
  ].join("; ");
  return `<!DOCTYPE html>
<html lang="en">
<head>
<meta charset="utf-8">
<meta http-equiv="Content-Security-Policy" content="${policy}">
<meta name="viewport" content="width=device-width, initial-scale=1">
<title>${escapeText(`Dependencies of ${index.title}`)}</title>
<style>${style}</style>
<script type="application/json" id="data">${escapeJson({ ...index, absent: faultsOf(libraries) })}</script>
${layout.text ? `<script type="text/plain" id="layout">${layoutScript(layout.text)}</script>` : ""}
${[...parts].map((part, at) => partElement(part, at)).join("\n")}
</head>
<body>
<p class="waiting">Drawing …</p>
<noscript>This report is drawn by its script, which is switched off here.</noscript>
<script type="module">${script}</script>
</body>
</html>
`;
}

/** Joins a module of the page, after those that it imports, to one script. */
function scriptOf(name: string, known = new Set<string>()): string {
  known.add(name);
  const text = readOwnFile(new URL(`./page/${name}`, import.meta.url));
  const before = [...text.matchAll(IMPORT)].map(([, each]) => (known.has(each) ? "" : scriptOf(each, known)));
  return `${before.join("")}\n${text.replace(IMPORT, "").replace(/^export /gm, "")}`;
}

/** Returns the script of the worker, without `</script` and `<!--`, which would end its element. */
function layoutScript(library: string) {
  return `${library}\n${scriptOf("layout_worker.js")}`.replace(/<(?=\/script|!--)/gi, "\\x3c");
}

function faultsOf(libraries: Library[]) {
  return Object.fromEntries(libraries.flatMap(({ name, fault }) => (fault ? [[name, fault]] : [])));
}

function partElement(part: object, at: number) {
  const bytes = deflateSync(JSON.stringify(part));
  return `<script type="text/plain" id="part-${at}">${bytes.toString("base64")}</script>`;
}

/** Returns the rules for the kinds' colours, on light pages and on dark ones. */
function colours() {
  const variables = (shade: "light" | "dark") => {
    return KINDS.map((kind) => `--${kind.kind}: ${kind[shade]};`).join(" ");
  };
  const classes = KINDS.map(({ kind }) => `.${kind} { --kind: var(--${kind}); }`).join("\n");
  return `
:root { ${variables("light")} }
@media screen and (prefers-color-scheme: dark) { :root { ${variables("dark")} } }
${classes}
`;
}

const hash = (text: string) => `sha256-${createHash("sha256").update(text).digest("base64")}`;

/** @returns HTML */
function escapeText(text: string): string {
  return text.replace(/&/g, "&amp;").replace(/</g, "&lt;").replace(/>/g, "&gt;");
}

/** Returns JSON that neither ends a script element nor begins a comment in it. */
const escapeJson = (value: unknown): string => JSON.stringify(value).replace(/</g, "\\u003c");
