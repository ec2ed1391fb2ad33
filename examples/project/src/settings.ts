import { argv, env } from "node:process";

/** What the words and the environment say. */
export function readSettings() {
  return { language: env.LANG?.slice(0, 2) ?? "en", asPage: argv.includes("--page") };
}
