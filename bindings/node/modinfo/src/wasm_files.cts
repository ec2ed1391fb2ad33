/** Finds and reads the WebAssembly module, for `import` and for `require`. */

import { ProgramEnd } from "./core/errors.cjs";
import { bytesOfText } from "./core/module_text.cjs";
import { engine } from "./core/webassembly.cjs";

/** The module beside the code, where this package is a part of the repository. */
const IN_REPOSITORY = /^(.*[\\/])bindings[\\/]node[\\/]modinfo[\\/]dist[\\/]module\.js$/;

/** Node's functions: a bundle as an ES module can require none of them. */
interface System {
  existsSync: typeof import("node:fs").existsSync;
  readFileSync: typeof import("node:fs").readFileSync;
  /** The path of the file beside the code that has the module as text. */
  own: string;
}

/** @param system node's, and where the module is */
export function wasmFiles({ existsSync, readFileSync, own }: System) {
  /**
   * The path of the text of the module beside the code; else what the environment variable MODINFO_WASM names;
   * else, in the repository, the proved module.
   * @throws {ProgramEnd} there is none of them
   */
  const modulePath = (): string => {
    const [, repository] = IN_REPOSITORY.exec(own) ?? [];
    const built = repository && `${repository}build/modinfo.wasm`;
    const found = existsSync(own) ? own : process.env.MODINFO_WASM || (built && existsSync(built) && built);
    if (!found) {
      const elsewhere = "copy it from the package, or import modinfo/inline";
      const remedy = built ? "run packaging/wasm/build" : elsewhere;
      throw new ProgramEnd(`${own} not found: ${remedy}, or set MODINFO_WASM`);
    }
    return found;
  };

  const bytesOf = (path: string) => {
    const isText = path.endsWith(".js");
    return isText ? bytesOfText(readFileSync(path, "latin1").split('"')[1] ?? "") : readFileSync(path);
  };

  /**
   * @returns a `WebAssembly.Module`
   * @throws {ProgramEnd} it can't be read, or is none
   */
  const compiledModule = (path: string): object => {
    try {
      return new engine.Module(bytesOf(path));
    } catch (error) {
      const { message } = error as Error;
      throw new ProgramEnd(`${path} can't be run here: ${message} (node from 18.19 on runs it)`);
    }
  };

  return { compiledModule, modulePath, read: () => bytesOf(modulePath()) };
}
