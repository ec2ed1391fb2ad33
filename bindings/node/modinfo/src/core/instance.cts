/** Calls of the WebAssembly module, which has the functions of the library for C. */

import { ModinfoFault, ProgramEnd } from "./errors.cjs";
import { type Exports, type Instance, engine } from "./webassembly.cjs";
import type { FaultName } from "../types/calls.cjs";

/** An instance with more bytes of memory is given up after its call, since no memory shrinks. */
const MOST_KEPT = 256 * 2 ** 20;
/** No instance has more bytes. */
const MOST_MEMORY = 2 ** 31;

const encoder = new TextEncoder();
const decoder = new TextDecoder("utf-8", { ignoreBOM: true });

/** An answer as JSON, or the name of a fault. */
export type Result = { isAnswer: true, text: string } | { isAnswer: false, text: FaultName };

type Part = string | Uint8Array;

/** A call of the module, with the lengths of the parts. */
type Call = (own: Exports, lengths: number[]) => number;

/** A module with an instance, which is another one after a call that failed. */
export class Core {
  #module;
  /** None during a call, and after one that failed. */
  #exports: Exports | undefined;

  /**
   * @param module a `WebAssembly.Module`, or the bytes of one
   * @param instance of the module: older browsers make none at once on a page's own thread
   */
  constructor(module: object, instance?: Instance) {
    this.#module = module instanceof engine.Module ? module : new engine.Module(module);
    this.#exports = (instance ?? this.#instance()).exports;
  }

  /** The version of the library, as include/modinfo.h has it. */
  get version() {
    return (this.#exports ?? this.#instance().exports).version();
  }

  /** @param command as include/modinfo.h numbers them */
  run(command: number, document: Part): Result {
    return this.#call([document], (own, [length]) => own.run(command, length));
  }

  /** @param mediaType as include/modinfo.h numbers them */
  runSource(name: "analyze_source" | "check_source", text: Part, specifier: string, mediaType: number): Result {
    return this.#call([text, specifier], (own, [first, second]) => own[name](first, second, mediaType));
  }

  #instance() {
    return new engine.Instance(this.#module);
  }

  /** @throws {ModinfoFault} `Stack` */
  #call(parts: Part[], call: Call): Result {
    const bytes = parts.map((part) => (typeof part === "string" ? encoder.encode(part) : part));
    const own = this.#exports ?? this.#instance().exports;
    this.#exports = undefined;
    const result = resultOf(own, bytes, call);
    if (own.memory.buffer.byteLength <= MOST_KEPT) {
      this.#exports = own;
    }
    return result;
  }
}

function resultOf(own: Exports, parts: Uint8Array[], call: Call): Result {
  const lengths = parts.map(({ length }) => length);
  const length = lengths.reduce((sum, each) => sum + each, 0);
  try {
    let end = length < MOST_MEMORY ? own.reserve(length) : 0;
    if (end === 0) {
      return { isAnswer: false, text: "OutOfMemory" };
    }
    const memory = new Uint8Array(own.memory.buffer);
    for (const part of parts) {
      memory.set(part, end);
      end += part.length;
    }
    const isAnswer = call(own, lengths) === 0;
    const answer = new Uint8Array(own.memory.buffer, own.answer(), own.answer_length());
    return { isAnswer, text: decoder.decode(answer) } as Result;
  } catch (error) {
    throw faultOf(error as Error);
  }
}

/** What a call threw: engines have errors of several classes for a stack that overflows. */
function faultOf({ message }: Error) {
  return /unreachable/i.test(message)
    ? new ProgramEnd(`modinfo ended: ${message}`)
    : ModinfoFault.of("Stack", `Stack: the input nests too deep for the stack: ${message}`);
}
