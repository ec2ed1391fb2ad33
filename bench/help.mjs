/** The help of the scripts in this folder. */

import { readFileSync } from "node:fs";
import { fileURLToPath } from "node:url";

/**
 * Prints the first comment of a script, where its first word is -h or --help, and ends the process.
 * @param {string} url of the script
 */
export function printHelp(url) {
  if (process.argv[2] !== "-h" && process.argv[2] !== "--help") {
    return;
  }
  const [, comment] = /\/\*\*\n(.*?)\n \*\//s.exec(readFileSync(fileURLToPath(url), "utf8"));
  console.log(comment.replace(/^ \* ?/gm, ""));
  process.exit();
}
