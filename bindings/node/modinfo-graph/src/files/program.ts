/** Finds the program `modinfo`, tries whether it runs, and loads what is installed for this package. */

import { spawn } from "node:child_process";
import { once } from "node:events";
import { existsSync, readFileSync } from "node:fs";
import { createRequire } from "node:module";
import { resolve as absolute } from "node:path";
import { fileURLToPath } from "node:url";

import { compiledModule, modulePath } from "modinfo/internal/wasm_module.js";
import { unlessThrown } from "../runtime/faults.js";

/** The package that has the program for this system, where there is one. */
export const PACKAGE = `modinfo-${process.platform}-${process.arch}`;
/** The repository, where this package is a part of it. */
const REPOSITORY = /^(.*\/)bindings\/node\/modinfo-graph\/dist\/files\//.exec(import.meta.url)?.[1];

/**
 * The absolute path of the program of the package that npm installs beside this one; else what the
 * environment variable MODINFO names; else, in the repository, the proved program; else the WebAssembly
 * module. What is called `modinfo` on the PATH is another program on most systems, and is not looked for.
 * @throws {ProgramEnd} there is none of them
 */
export function modinfoPath(): string {
  return absolute(installedPath() || process.env.MODINFO || builtPath() || modulePath());
}

export function programName(): string {
  try {
    const path = modinfoPath();
    return `${isWasm(path) ? "WebAssembly" : "native"}: ${path}`;
  } catch (error) {
    return (error as Error).message;
  }
}

/** Whether a path is that of a WebAssembly module, or of the file of `modinfo` that has the module as text. */
export const isWasm = (program: string): boolean => /\.wasm$|[\\/]module\.js$/.test(program);
const installedPath = () => unlessThrown(() => ownRequire.resolve(`${PACKAGE}/modinfo`));

function builtPath() {
  const path = REPOSITORY && fileURLToPath(new URL("build/modinfo", REPOSITORY));
  return path && existsSync(path) ? path : undefined;
}

/** Runs the program without a document, or compiles the module; rejected where that fails. */
export async function checkProgram(program: string): Promise<void> {
  if (isWasm(program)) {
    compiledModule(program);
    return;
  }
  const how = await endOf(program).catch(({ message }) => message);
  if (how !== "status 0") {
    const hint = program === installedPath()
      ? `without the package ${PACKAGE} WebAssembly runs, in threads`
      : "./modinfo --prove makes it in the repository, MODINFO names another";
    throw new Error(`${program} doesn't run with files --null: ${how} (${hint})`);
  }
}

/** How the program ends that is handed no document, as `status 0` or `SIGTERM`. */
async function endOf(program: string): Promise<string> {
  const child = spawn(program, ["files", "--null"], { stdio: ["ignore", "ignore", "inherit"] });
  const [status, signal] = await once(child, "close");
  return signal ?? `status ${status}`;
}

export const DEBIAN_MODULES = "/usr/share/nodejs";
/** What node loads from this package, or from the bundle with it: never a module of a project that is read. */
export const ownRequire = createRequire(import.meta.url ?? __filename);

export function loadTypeScript(): unknown {
  for (const path of ["typescript", `${DEBIAN_MODULES}/typescript`]) {
    try {
      return ownRequire(path);
    } catch (error) {
      if ((error as NodeJS.ErrnoException).code !== "MODULE_NOT_FOUND") {
        throw error;
      }
    }
  }
  throw new Error("types need TypeScript: npm install typescript, or Debian's node-typescript");
}

export const readOwnFile = (path: string | URL): string => readFileSync(path, "utf8");
