/** A thread that analyzes files by the WebAssembly module as `modinfo files` does, with its messages. */

import { type Stats, realpathSync } from "node:fs";
import { parentPort, workerData } from "node:worker_threads";

import { Core } from "modinfo/internal/core/instance.cjs";
import { messageOf } from "modinfo/internal/core/plans.cjs";
import { FileFault } from "../runtime/faults.js";
import { MAX_BYTES, readRegularFile } from "./regular_files.js";

/** Characters that `encodeURIComponent` encodes, and the path of a file's URL needn't. */
const LEFT = /%(?:2F|24|26|2B|2C|3B|3D|3A|40)/g;
const IN_SYSTEM = /^\/(?:proc|sys)\//;

/** Messages for the system's errors; for all others it is that the file can't be read. */
const MESSAGES: Record<string, string> = {
  ENOENT: "no such file", EACCES: "permission denied", EPERM: "permission denied",
  ENAMETOOLONG: "a path that isn't UTF-8, or is too long",
};

const core = new Core(workerData);

parentPort?.on("message", (path: string) => parentPort?.postMessage(answerOf(path)));

type Reply = { info: string } | { fault: string, message: string, position?: [line: number, character: number] };

function answerOf(path: string): Reply {
  try {
    const bytes = readModuleFile(path);
    const { isAnswer, text } = core.runSource("analyze_source", bytes, urlOfFile(path), 0);
    return isAnswer ? { info: text.trimEnd() } : faultOf(text, bytes, path);
  } catch (error) {
    const { fault = "Program", message } = error as Partial<FileFault> & Error;
    return { fault, message };
  }
}

function faultOf(fault: string, bytes: Buffer, path: string): Reply {
  if (fault !== "Syntax" && fault !== "Defect") {
    return { fault, message: fault === "Input" ? "the file isn't UTF-8" : "an allocation failed" };
  }
  const { text } = core.runSource("check_source", bytes, urlOfFile(path), 0);
  const { expected, at: { line, column } } = JSON.parse(text);
  return { fault, message: messageOf(expected), position: [line, column] };
}

/** @param path absolute */
function urlOfFile(path: string): string {
  return `file://${encodeURIComponent(path).replace(LEFT, decodeURIComponent)}`;
}

function readModuleFile(name: string): Buffer {
  // In the path of a URL `..` takes away the step before it, be that a link or not.
  const path = name.includes("..") ? decodeURIComponent(new URL(urlOfFile(name)).pathname) : name;
  try {
    return readRegularFile(path, MAX_BYTES, (status) => checkKind(status, path));
  } catch (error) {
    const message = MESSAGES[String((error as NodeJS.ErrnoException).code)] ?? "the file can't be read";
    throw error instanceof FileFault ? error : new FileFault("Input", message);
  }
}

function checkKind(status: Stats, path: string) {
  const why = status.isDirectory()
    ? "a folder: name its files, which git ls-files lists, or use the package for node"
    : !status.isFile() ? "no regular file"
    : status.size > MAX_BYTES ? "larger than 64 MiB"
    : IN_SYSTEM.test(realpathSync.native(path)) ? "in /proc or /sys" : undefined;
  if (why !== undefined) {
    throw new FileFault("Input", why);
  }
}
