/** URLs and places of names, files and folders. */

import { realpathSync } from "node:fs";
import { resolve as absolute } from "node:path";
import { fileURLToPath, pathToFileURL } from "node:url";

import { unlessThrown } from "../runtime/faults.js";
import { memoized } from "./by_folder.js";

/** A path of which each character stands for itself in a URL. */
const PLAIN = /^[\w./@+~-]*$/;

/** @param path absolute and normal */
export function urlOfPath(path: string): string {
  return PLAIN.test(path) ? `file://${path}` : pathToFileURL(path).href;
}

/** @returns nothing where the text is no URL */
export function urlFrom(text: string, base?: URL): URL | undefined {
  const { canParse } = URL as unknown as { canParse: (text: string, base?: string | URL) => boolean };
  return canParse(text, base) ? new URL(text, base) : undefined;
}

export const urlOfFolder = (folder: string): URL => pathToFileURL(`${folder}/`);
/** @returns nothing where the URL can't have a path */
export const pathOfUrl = (url: URL): string | undefined => unlessThrown(() => fileURLToPath(url));
/** @returns the path without links in it; nothing where it leads to nothing */
export const realPath = (path: string): string | undefined => unlessThrown(() => realpathSync.native(path));
export type KeyOf = (path: string, real?: string) => string;

/** The URL of a file without symbolic links in it; `real` is the path without links, where it is known. */
export function canonicalUrl(path: string, real?: string): string {
  const own = absolute(path);
  return urlOfPath(real ?? realPath(own) ?? own);
}

/** @returns for one graph: a link leads where it led when it was first asked for */
export function canonicalUrls(): KeyOf {
  const known = memoized((path: string) => canonicalUrl(path));
  return (path, real) => (real === undefined ? known(absolute(path)) : urlOfPath(real));
}
