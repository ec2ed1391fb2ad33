/** What is used of `WebAssembly`, whose own types need those of the DOM. */

/** The functions of the module, which has those of the library for C, and its memory. */
export interface Exports {
  readonly memory: { readonly buffer: ArrayBuffer };
  version(): number;
  reserve(length: number): number;
  answer(): number;
  answer_length(): number;
  run(command: number, length: number): number;
  analyze_source(text: number, specifier: number, mediaType: number): number;
  check_source(text: number, specifier: number, mediaType: number): number;
}

export interface Instance {
  readonly exports: Exports;
}

interface Engine {
  readonly Module: new (bytes: object) => object;
  readonly Instance: new (module: object) => Instance;
  compile(bytes: object): Promise<object>;
  instantiate(module: object): Promise<Instance>;
}

export const { WebAssembly: engine } = globalThis as unknown as { WebAssembly: Engine };
