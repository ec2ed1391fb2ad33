/**
 * Has the links of a package's page lead to what the package has.
 *
 *     node bindings/node/pages.mjs modinfo FOLDER
 *
 * Writes README.md of the package into FOLDER. Pages of the repository that it links are copied into `docs`; their own
 * links to other pages and files become plain text, as do those to what is no page. Declarations are linked in place
 * of sources.
 */

import { existsSync, mkdirSync, readFileSync, writeFileSync } from "node:fs";
import { basename, join } from "node:path";
import { fileURLToPath } from "node:url";

const ROOT = fileURLToPath(new URL("../..", import.meta.url));
const LINK = /(!?)\[([^\]]*)\]\((?!\w+:)([^)#\s]*)(#[^)\s]+)?\)/g;

/**
 * @param {string} text of a page
 * @param {(path: string) => string | undefined} targetOf where a link leads to in the package; nothing for plain text
 */
function linked(text, targetOf) {
  return text.replace(LINK, (whole, image, words, path, heading = "") => {
    const target = path === "" ? "" : targetOf(path);
    return target === undefined ? words : `${image}[${words}](${target}${heading})`;
  });
}

const [name, folder] = process.argv.slice(2);
const own = join(ROOT, "bindings/node", name);
const pages = new Map();
const page = linked(readFileSync(join(own, "README.md"), "utf8"), (path) => {
  if (path.startsWith("src/")) {
    return path.replace(/^src\//, "dist/").replace(/\.(c?)ts$/, ".d.$1ts");
  }
  if (path.endsWith(".md")) {
    pages.set(basename(path), join(own, path));
    return `docs/${basename(path)}`;
  }
  return existsSync(join(folder, path)) ? path : undefined;
});
writeFileSync(join(folder, "README.md"), page);
if (pages.size > 0) {
  mkdirSync(join(folder, "docs"));
}
for (const [file, path] of pages) {
  const text = readFileSync(path, "utf8");
  writeFileSync(join(folder, "docs", file), linked(text, (link) => (pages.has(link) ? link : undefined)));
}
