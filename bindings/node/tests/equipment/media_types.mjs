/** Media types of files, by docs/media-types.json. */

import { readFileSync } from "node:fs";

/** @type {Record<"endings" | "declarations", Record<string, string>>} */
const { endings, declarations } = JSON.parse(readFileSync(new URL("../../../../docs/media-types.json", import.meta.url), "utf8"));

/**
 * The media type of a file of code by its name, as docs/FORMATS.md describes it.
 * @param {string} name
 * @returns {string | undefined} nothing where the file is no code
 */
export function mediaTypeOf(name) {
  const [, front, ending] = /([^/]+)\.([^./]*)$/.exec(name.toLowerCase()) ?? ["", "", ""];
  const mediaType = endings[ending];
  const declares = mediaType === "TypeScript" ? /\.d(\.[^.]*)?$/ : /\.d$/;
  return mediaType === "Json" ? undefined : declares.test(front) ? declarations[mediaType] ?? mediaType : mediaType;
}

/**
 * The end of the names of files of a media type.
 * @param {string} mediaType
 * @returns {string | undefined} nothing for a media type that no name has
 */
export function endingOf(mediaType) {
  const [declared = mediaType] = Object.keys(declarations).filter((name) => declarations[name] === mediaType);
  const ending = Object.keys(endings).find((each) => endings[each] === declared);
  return ending && (declared === mediaType ? `.${ending}` : `.d.${ending}`);
}
