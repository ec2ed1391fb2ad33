import { parse } from "https://deno.land/std@0.224.0/flags/mod.ts";
import type { Settings } from "./settings.ts";
import "./polyfill.ts";

export { version } from "./version.ts";
export * from "./errors.ts";
export * as größe from "./größe.ts"; export type { Level } from "./log.ts";

const defaults: Settings = { port: 8000, level: "info" };

export function settings(words: string[]): Settings {
  return { ...defaults, ...parse(words) };
}
