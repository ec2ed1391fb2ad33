import type { DocumentFault, Report } from "./check_report.cjs";
import type { MediaType, ModuleDocument } from "./module_document.cjs";
import type { ModuleInfo } from "./module_info.cjs";

export * from "./check_report.cjs";
export * from "./module_info.cjs";
export * from "./module_document.cjs";

/** A `URL` of node or of the DOM, of which the address is read. */
export interface Url {
  readonly href: string;
}

/** A function that returns its result without a promise. It throws an `Error` before `init` or `initSync`. */
export type Sync<F> =
  F extends (...words: infer Words) => Promise<infer Result> ? (...words: Words) => Result : never;

/** The functions of an entry of the package. */
export interface Functions {
  /**
   * Loads the module. Functions that return promises do so themselves. All functions work in the calling thread,
   * in which nothing else runs meanwhile; they read their arguments at the call, and an option that there isn't is
   * a `TypeError`.
   * @throws {Error} it can't be read, or the engine is too old for it
   */
  init(): Promise<void>;

  /**
   * Loads the module at once. On a page's own thread older browsers refuse that.
   * @param source a `WebAssembly.Module` of `moduleBytes`, or such bytes; else those of the package
   * @throws {Error} as `init` does
   */
  initSync(source?: object): void;

  /**
   * The bytes of the module. A host that compiles no bytes takes a file with them, and `initSync` the module that
   * the host makes of that file.
   * @throws {Error} it can't be read
   */
  moduleBytes(): Uint8Array;

  /**
   * What a module depends on, from its text.
   * @param specifier an absolute URL
   * @param mediaType else by the end of the specifier
   * @throws {ModinfoFault} `Syntax`: the text has a syntax error, whose `line` and `column` the fault has.
   *   `Input`: it has a lone surrogate. `Specifier`: the specifier is no URL, or has a lone surrogate.
   *   `Tree`: there is no such media type. `OutOfMemory`. `Stack`
   * @throws {TypeError} the text is no string, or the specifier neither a string nor a `URL`
   * @throws {Error} as `init` does
   */
  moduleInfo(
    text: string, specifier: string | Url, mediaType?: MediaType, options?: CallOptions,
  ): Promise<ModuleInfo>;

  /**
   * Whether a text is valid, or where its syntax error is. Arguments and errors are those of `moduleInfo`, but for
   * `Syntax`, `Specifier` where that is no URL, and `Tree`, which the report has.
   */
  checkSource(
    text: string, specifier: string | Url, mediaType?: MediaType, options?: CallOptions,
  ): Promise<Report>;

  /**
   * What a module depends on, from its source, tree and comments.
   * @param document also as JSON, the bytes in UTF-8
   * @throws {ModinfoFault} the document is refused, with one of the faults in docs/FORMATS.md of
   *   the repository: `Input` where it is no UTF-8, `Json` where it is no JSON, `Tree` where it is no
   *   module document, as null isn't, and so on. Or `OutOfMemory`, `Stack`
   * @throws {TypeError} `JSON.stringify` can't write it: it is undefined, a function or a symbol, or
   *   has itself or a bigint in it
   * @throws {Error} as `init` does
   */
  analyze(
    document: ModuleDocument | string | Uint8Array, options?: ReportOptions,
  ): Promise<ModuleInfo>;

  /**
   * Like `analyze`, of the tree of a parser. What is analyzed is the `estreeDocument` of the arguments.
   * @throws {ModinfoFault} as `analyze` does
   * @throws {TypeError} as `moduleInfo` does, and where there are no comments
   * @throws {RangeError} the tree nests thousands of levels deep
   */
  analyzeEstree(
    tree: EstreeNode, text: string, specifier: string | Url, mediaType: MediaType,
    options?: EstreeOptions & ReportOptions,
  ): Promise<ModuleInfo>;

  /**
   * The information of one module, as version 1 stored it, in version 2. Returns JSON that is no such
   * information as it is, and then no `ModuleInfo`, though the type has it so.
   * @param information also as JSON, the bytes in UTF-8
   * @throws {ModinfoFault} it is refused: `Input` or `Json` as by `analyze`, `Float` where a number
   *   isn't held as a whole number, `ColumnOverflow` where a column is above 2^64 - 1. Or `OutOfMemory`, `Stack`
   * @throws {TypeError} as `analyze` does
   */
  convert(information: object | string | Uint8Array, options?: ReportOptions): Promise<ModuleInfo>;

  /**
   * The keys that a root reaches among modules, ascending. A dependency names the key that its
   * specifier is, or its argument where that is a string; nothing is resolved.
   * @param graph also as JSON, the bytes in UTF-8
   * @throws {ModinfoFault} it is refused: `Input` or `Json` as by `analyze`, `Shape` where it or a
   *   module's part of it doesn't have its form, `Float` where a number in such a part isn't held as
   *   a whole number. Or `OutOfMemory`, `Stack`
   * @throws {TypeError} as `analyze` does
   */
  reach(graph: ModuleGraph | string | Uint8Array, options?: ReportOptions): Promise<string[]>;

  /**
   * What is wrong with a document of a command, and where; or that it is valid, with warnings. Also
   * resolves where the document has a fault.
   * @param document also as JSON, the bytes in UTF-8. Positions in the text of an object are those in
   *   what `JSON.stringify` makes of it
   * @throws {ModinfoFault} `OutOfMemory` and `Stack` alone
   * @throws {TypeError} as `analyze` does, and where there is no such command
   */
  check(document: object | string | Uint8Array, options?: CheckOptions): Promise<Report>;

  readonly moduleInfoSync: Sync<Functions["moduleInfo"]>;
  readonly checkSourceSync: Sync<Functions["checkSource"]>;
  readonly analyzeSync: Sync<Functions["analyze"]>;
  readonly analyzeEstreeSync: Sync<Functions["analyzeEstree"]>;
  readonly convertSync: Sync<Functions["convert"]>;
  readonly reachSync: Sync<Functions["reach"]>;
  readonly checkSync: Sync<Functions["check"]>;
}

/** An `AbortSignal`, of node or of the DOM. */
export interface Signal {
  readonly aborted: boolean;
  readonly reason: unknown;
  throwIfAborted(): void;
  addEventListener(type: "abort", listener: () => void): void;
  removeEventListener(type: "abort", listener: () => void): void;
}

export interface CallOptions {
  /** Where it is aborted before the call begins to work, that is rejected with its reason. */
  signal?: Signal;
}

export interface ReportOptions extends CallOptions {
  /**
   * Whether the error of a document that is refused has a report: where the fault is, and what was
   * expected there.
   */
  report?: boolean;
}

export interface CheckOptions extends CallOptions {
  /** The command that would read the document; `"analyze"` where it is missing. */
  command?: "analyze" | "analyze --estree" | "analyze --source" | "convert" | "reach";
}

/** A node or a comment, with `start` and `end` or with `range`. */
export interface EstreeNode {
  type: string;
  start?: number | null | undefined;
  end?: number | null | undefined;
  range?: [number, number] | undefined;
}

export interface EstreeOptions {
  /** Else those that the tree holds. */
  comments?: readonly EstreeNode[];
  /** What the tree counts; `"utf16"` where it is missing. */
  offsets?: "utf16" | "utf8";
}

export interface ModuleGraph {
  root: string;
  modules: Record<string, ModuleInfo>;
}

/**
 * Why a document or a text is refused; docs/FORMATS.md of the repository has when each comes. `Stack`: it nests
 * deeper than the stack of the thread or of the module allows; the next call isn't affected.
 */
export type FaultName = DocumentFault | "OutOfMemory" | "Stack";
