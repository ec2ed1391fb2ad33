/** What files are, by their paths. */

import { Module } from "node:module";
import { extname } from "node:path";

import { DECLARATIONS, ENDINGS, MIME_TYPES } from "./media_types.js";
import type { MediaType } from "modinfo";

const testOf = (pattern: RegExp) => (path: string) => pattern.test(path);
const COMPONENTS = ["vue", "svelte", "astro", "mdx"];
const PAGES = ["html", "htm"];
const TYPESCRIPT_TYPES = new Set([...DECLARATIONS.keys(), "Tsx"]);
const ALL = [...ENDINGS.keys()];
const OF_TYPESCRIPT = ALL.filter((each) => TYPESCRIPT_TYPES.has(ENDINGS.get(each) ?? ""));
/** The endings of modules, TypeScript's first. */
export const MODULE_ENDINGS = [...new Set([...OF_TYPESCRIPT, ...ALL])].map((each) => `.${each}`);
/** That of TypeScript may have another file's ending before it, as `a.d.css.ts` has. */
const DECLARATION = /\.d(?:\.[cm]ts|(?:\.[^./]*)?\.ts)$/i;
const ENDING = new RegExp(`${DECLARATION.source}|${ofEndings("", [...ALL, ...COMPONENTS]).source}`, "i");
const LOADED = new Set(["", ...[...ALL, ...COMPONENTS, "json", "node", "wasm"].map((each) => `.${each}`)]);
/** Folders of packages for all projects: those of NODE_PATH, and what this node is built with. */
export const globalFolders: string[] = (Module as { globalPaths?: string[] }).globalPaths ?? [];
export const isModule = testOf(ofEndings("[^/]", ALL));
/** Whether a file is a component, whose scripts are a module. */
export const isComponent = testOf(ofEndings("[^/]", COMPONENTS));
/** Whether a file is a page, whose scripts are modules that the page begins with. */
export const isPage = testOf(ofEndings("[^/]", PAGES));
export const isDeclaration = testOf(DECLARATION);
/** True for a declaration file too. */
export const isTypeScript = testOf(ofEndings("", OF_TYPESCRIPT));

/** @param before an expression */
function ofEndings(before: string, endings: string[]) {
  return new RegExp(`${before}\\.(?:${endings.join("|")})$`, "i");
}

/** The media type of code, by the language of a component's script: an ending, or a word of a MIME type. */
export function mediaTypeOfLanguage(language: string): MediaType | undefined {
  return ENDINGS.get(language.toLowerCase()) ?? mediaTypeOfMime(`text/${language}`);
}

export function mediaTypeOfMime(type: string): MediaType | undefined {
  const name = type.split(";")[0].trim().toLowerCase();
  return name === "text/babel" ? "Jsx" : MIME_TYPES.get(name);
}

/** @returns the path without the ending of a module, a declaration file or a component */
export const withoutEnding = (path: string): string => path.replace(ENDING, "");

/** The path of the JavaScript that a compiler makes of a TypeScript file. */
export function compiledPath(path: string): string | undefined {
  const [ending, kind] = /(?<!\.d)\.([cm]?)tsx?$/i.exec(path) ?? [];
  return ending && `${path.slice(0, -ending.length)}.${kind}js`;
}

/** The paths of what may be beside a declaration file, which has the types of it. */
export function describedBeside(path: string): string[] {
  const [ending = "", other, kind = ""] = /\.d(?:\.([^./]*))?\.([cm]?)ts$/i.exec(path) ?? [];
  const base = path.slice(0, path.length - ending.length);
  const scripts = [`${base}.${kind}js`, ...(kind === "" ? [`${base}.jsx`] : [])];
  return ending === "" ? [] : other === undefined ? scripts : [`${base}.${other}`];
}

/** The path of the declaration file that may be beside JavaScript. */
export function declarationOf(path: string): string | undefined {
  const [ending, kind] = /\.([cm]?)jsx?$/.exec(path) ?? [];
  return ending && `${path.slice(0, -ending.length)}.d.${kind}ts`;
}

/** Whether nothing loads a file as a module, as a style sheet. */
export const isAsset = (path: string): boolean => !LOADED.has(extname(path).toLowerCase());

/** Whether a file, by its path without links, is that of an installed package, and not one of a project. */
export function isInstalled(path: string): boolean {
  return path.includes("/node_modules/") || globalFolders.some((folder) => path.startsWith(`${folder}/`));
}
