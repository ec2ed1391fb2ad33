/** The modules of a report. */

import { dirname, relative, resolve as absolute } from "node:path";

import { isFolder } from "modinfo-graph/internal/files/find_files.js";
import { readRegularText } from "modinfo-graph/internal/files/regular_files.js";
import { canonicalUrl } from "modinfo-graph/internal/files/urls.js";
import { type Fault, faultOf } from "modinfo-graph/internal/runtime/faults.js";
import { type Mark, faultMarks, marksOf } from "./marks.js";
import { type Row, rowsOf } from "./rows.js";
import type { ResolvedModuleInfo } from "modinfo-graph";
import type { ReadFile } from "modinfo-graph/internal/graph/read_graph.js";

export interface Module {
  /** The path of its file, absolute */
  file: string;
  /** Its path from the report's folder */
  path: string;
  /** The canonical URL of its file */
  key: string;
  /** Its text; none if the file can't be read */
  source?: string;
  rows: Row[];
  marks: Mark[];
  /** Why it wasn't analyzed */
  fault?: Fault;
}

/** Collects modules in the order in which they are read, each file once. */
export class Project {
  #modules: Module[] = [];

  add({ path, info, fault, isLeft }: ReadFile) {
    const file = absolute(path);
    const module = { file, path: "", key: canonicalUrl(file), rows: [], marks: [] };
    if (!isLeft) {
      this.#modules.push(module);
      this.#read(module, info, fault);
    }
  }

  /** The modules that are listed, and the deepest folder around these and the paths of the words. */
  finish(paths: string[], isListed: (key: string) => boolean): { folder: string, modules: Module[] } {
    const modules = this.#modules.filter(({ key }) => isListed(key));
    const folders = paths.filter(isFolder).map((path) => absolute(path));
    const folder = commonFolder([...folders, ...modules.map(({ file }) => dirname(file))]);
    for (const module of modules) {
      module.path = relative(folder, module.file);
    }
    return { folder, modules };
  }

  #read(module: Module, info: ReadFile["info"], fault: Fault | undefined) {
    try {
      module.source = readRegularText(module.file);
      if (fault) {
        module.fault = fault;
        module.marks = faultMarks(module.source, fault);
      } else {
        module.rows = rowsOf(info as ResolvedModuleInfo);
        module.marks = marksOf(module.source, module.rows);
      }
    } catch (error) {
      module.fault = fault ?? changed(error);
      module.rows = [];
    }
  }
}

function changed(error: unknown) {
  const message = "the file changed while the report was made";
  return error instanceof RangeError ? { fault: "Input", message } : faultOf(error);
}

/** The deepest folder around absolute folders; the current one if there are none. */
function commonFolder(folders: string[]): string {
  const [first = process.cwd(), ...others] = folders;
  let common = first;
  const isIn = (folder: string) => `${folder}/`.startsWith(common === "/" ? "/" : `${common}/`);
  while (!others.every(isIn)) {
    common = dirname(common);
  }
  return common;
}
