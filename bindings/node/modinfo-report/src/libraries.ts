/** The libraries that are written into the page: they lay out the graph and the picture of sizes. */

import { fileURLToPath } from "node:url";

import { DEBIAN_MODULES, readOwnFile } from "modinfo-graph/internal/files/program.js";
import { unlessThrown } from "modinfo-graph/internal/runtime/faults.js";

/** The libraries: of each what it draws. */
const LIBRARIES = [
  { name: "dagre", debian: "node-dagre-layout", draws: "graph" },
  { name: "d3-hierarchy", debian: "node-d3-hierarchy", draws: "picture of sizes" },
];

/** The folder in which the package has their scripts; the repository has none. */
const OWN = fileURLToPath(new URL("../vendor", import.meta.url));

/** `text` is its script, `fault` why that can't be read */
export type Library = { name: string, draws: string, text?: string, fault?: string };

/** @param folders of the package's scripts, and of Debian's modules */
export function readLibraries([own, debianModules] = [OWN, DEBIAN_MODULES]): Library[] {
  return LIBRARIES.map(({ name, debian, draws }) => {
    const file = `${name}.min.js`;
    const read = (path: string) => unlessThrown(() => readOwnFile(path));
    const text = read(`${own}/${file}`) ?? read(`${debianModules}/${name}/dist/${file}`);
    const fault = `${name} not found: the package modinfo-report has it, as has Debian's ${debian}`;
    return text === undefined ? { name, draws, fault } : { name, draws, text };
  });
}
