/** What is handed in, as the module gets it. */

import { ModinfoFault } from "./errors.cjs";
import type { Signal, Url } from "../types/calls.cjs";

const LONE_SURROGATE = /\p{Surrogate}/u;
/** No text in UTF-8 has this byte. */
const NO_UTF8 = 0xff;

/**
 * @returns its JSON; no bytes that the caller may change
 * @throws {TypeError} it has none
 */
export function jsonOf(document: unknown): string | Uint8Array {
  if (document instanceof Uint8Array) {
    return new Uint8Array(document);
  }
  const json = typeof document === "string" ? document : JSON.stringify(document);
  if (json === undefined) {
    throw new TypeError(`a document must be an object or its JSON, not ${String(document)}`);
  }
  return json;
}

function hasLoneSurrogate(text: string) {
  // Node 18 has no `isWellFormed`.
  const { isWellFormed } = text as { isWellFormed?: () => boolean };
  return isWellFormed ? !isWellFormed.call(text) : LONE_SURROGATE.test(text);
}

/** @throws {ModinfoFault} it has a lone surrogate */
export function utf8Of<T extends string | Uint8Array>(text: T): T {
  if (typeof text === "string" && hasLoneSurrogate(text)) {
    throw ModinfoFault.of("Input", "Input: a lone surrogate isn't UTF-8");
  }
  return text;
}

/**
 * The document of a check. A text ends with its first lone surrogate, which a byte that UTF-8 doesn't have
 * replaces.
 */
export function checkedForm(json: string | Uint8Array): string | Uint8Array {
  if (typeof json !== "string" || !hasLoneSurrogate(json)) {
    return json;
  }
  const bytes = new TextEncoder().encode(json.slice(0, json.search(LONE_SURROGATE)));
  const form = new Uint8Array(bytes.length + 1).fill(NO_UTF8);
  form.set(bytes);
  return form;
}

/**
 * @returns the specifier
 * @throws {TypeError} the text is no string, or the specifier neither a string nor a `URL`
 * @throws {ModinfoFault} the specifier or the text has a lone surrogate
 */
export function urlText(text: unknown, specifier: unknown): string {
  if (typeof text !== "string") {
    throw new TypeError(`the text must be a string, not ${String(text)}`);
  }
  const url = (specifier as Partial<Url> | null | undefined)?.href ?? specifier;
  if (typeof url !== "string") {
    throw new TypeError(`specifier must be an absolute URL, not ${String(specifier)}`);
  }
  if (hasLoneSurrogate(url)) {
    throw ModinfoFault.of("Specifier", "Specifier: an absolute URL can't have a lone surrogate");
  }
  utf8Of(text);
  return url;
}

/**
 * @param names those that there are
 * @throws {TypeError} it is no object, or has another member
 */
export function checkKnown(options: unknown, names: string[]) {
  if (options === undefined) {
    return;
  }
  if (typeof options !== "object" || options === null) {
    throw new TypeError(`options must be an object, not ${String(options)}`);
  }
  const unknown = Object.keys(options).find((name) => !names.includes(name));
  if (unknown !== undefined) {
    throw new TypeError(`unknown option ${unknown}: the options are ${names.join(", ")}`);
  }
}

/** @throws {TypeError} it is no signal */
export function readSignal(options: { signal?: unknown } | undefined): Signal | undefined {
  const { signal } = options ?? {};
  if (signal !== undefined && !(signal instanceof AbortSignal)) {
    throw new TypeError("signal must be an AbortSignal");
  }
  return signal;
}
