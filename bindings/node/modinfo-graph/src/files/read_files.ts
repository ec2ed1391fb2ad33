/** Reads many files at once, by `modinfo files` or, in threads, by the WebAssembly module. */

import { Worker } from "node:worker_threads";

import { compiledModule } from "modinfo/internal/wasm_module.js";
import { onAbort } from "../runtime/call_options.js";
import { type Fault, FileFault, faultOf, unlessThrown } from "../runtime/faults.js";
import { inOrder } from "../runtime/in_order.js";
import { type Answer, type Kind, Pool, processesOf } from "../runtime/pool.js";
import { isModule } from "./file_kinds.js";
import { isWasm } from "./program.js";
import { realPath } from "./urls.js";
import type { ModuleInfo, Signal } from "modinfo";
import type { Found } from "./find_files.js";

/** `program` is the path of `modinfo` or of the WebAssembly module, `jobs` the most processes at once. */
export interface ReadOptions {
  program: string;
  jobs: number;
  signal?: Signal;
  /** Reads a file that isn't a module as a whole; nothing for other files */
  readOther?: (path: string) => Promise<Read> | undefined;
}

export type Read = Pick<FileResult, "value" | "fault">;

/** `info` is the JSON of its `ModuleInfo`, `value` the `ModuleInfo`, where it is of several texts */
export type FileResult = Omit<Found, "error" | "isExcluded">
  & { info?: string | Buffer, value?: ModuleInfo, fault?: Fault };

/** Files that the system calls regular, some of which have no end. */
const ENDLESS = /^\/(?:proc|sys)\//;
/** How many files are under way for each process: so many are done while an early one takes long. */
const UNDER_WAY = 256;
const INFO = ',"info":';

export function readFiles(
  files: AsyncIterable<Found>, { program, jobs, signal, readOther = () => undefined }: ReadOptions,
): AsyncGenerator<FileResult, void> {
  const kind = isWasm(program)
    ? threadsOf(program)
    : processesOf({ program, words: ["files", "--null"], read: readAnswer });
  const pool = new Pool(kind, jobs);
  const takeBack = onAbort(signal, () => pool.kill());
  const read = (file: Found): Promise<FileResult> | FileResult => {
    const { path, real, error, isLeft } = file;
    const other = error || isLeft ? undefined : readOther(path);
    return other ? other.then((result) => ({ path, real, ...result })) : readFile(file, pool);
  };
  return inOrder(files, jobs * UNDER_WAY, read, () => {
    takeBack();
    pool.kill();
  });
}

async function readFile({ path, real, error, isLeft }: Found, pool: Pool): Promise<FileResult> {
  if (isLeft) {
    return { path, isLeft };
  }
  try {
    if (error || !isModule(path)) {
      throw error ?? new FileFault("MediaType", "files with this ending are not read");
    }
    const own = real ?? realPath(path) ?? path;
    if (own.includes("\0") || ENDLESS.test(own)) {
      const why = own.includes("\0") ? "no such file: the path has a zero byte" : "a file of the system";
      throw new FileFault("Input", why);
    }
    return { path, real, info: await pool.run(`${own}\0`) };
  } catch (fault) {
    return { path, fault: faultOf(fault) };
  }
}

/** @param line `{"specifier":URL,"info":..}` or `{"specifier":URL,"fault":{..}}`; no URL has a quote */
function readAnswer(line: Buffer): Answer | undefined {
  const at = line.indexOf(INFO);
  if (at >= 0) {
    return { value: line.subarray(at + INFO.length, -1) };
  }
  const { name, message, position } = unlessThrown(() => JSON.parse(String(line)).fault) ?? {};
  return typeof name === "string" ? { error: new FileFault(name, message, position) } : undefined;
}

export function threadsOf(path: string): Kind {
  const workerData = compiledModule(path);
  return {
    name: "a thread",
    start: ({ onAnswer, onEnd }) => {
      const worker = new Worker(new URL("./file_worker.js", import.meta.url), { workerData });
      worker.on("message", ({ info, fault, message, position }) => {
        onAnswer(info === undefined ? { error: new FileFault(fault, message, position) } : { value: info });
      });
      worker.on("error", ({ message }) => onEnd(`ended: ${message}`));
      worker.on("exit", () => onEnd("ended: it ended"));
      return {
        send: (path) => worker.postMessage(path.slice(0, -1)),
        kill: () => worker.terminate(),
      };
    },
  };
}
