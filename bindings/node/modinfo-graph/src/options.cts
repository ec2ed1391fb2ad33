import type { CallOptions, Functions, ModuleInfo, Url } from "modinfo";
import type { Graph, ResolvedModuleInfo, ResolveHook } from "./graph/graph.cjs";

export * from "./graph/graph.cjs";

export type OfTexts = Pick<
  Functions, "moduleInfo" | "checkSource" | "analyze" | "analyzeEstree" | "convert" | "reach" | "check"
>;

export interface ModinfoOptions {
  /**
   * The path of the program `modinfo` for `graph`. Else that of the package modinfo-linux-x64 or
   * modinfo-linux-arm64, else what the environment variable MODINFO names, else, in the repository,
   * the one that `./modinfo --prove` makes, else the WebAssembly module. A program `modinfo` on the PATH is
   * not used, since most systems have another one of that name.
   */
  program?: string;
  /** The most processes or threads of `graph`; one for each processor, where it is missing. */
  jobs?: number;
}

/**
 * The functions of `modinfo`, and those on files. Each is rejected with a `ProgramEnd` after `close`. By `require`
 * trees, options and the information for `resolve` are read after the call, and may not be changed before the
 * result.
 */
export interface Calls extends OfTexts {
  /**
   * What the specifiers of a module resolve to, in a copy of its `ModuleInfo`. Each call looks for files
   * and reads each package.json anew.
   * @throws {TypeError} an option isn't what it has to be
   */
  resolve(information: ModuleInfo, options: ResolveOptions): Promise<ResolvedModuleInfo>;

  /**
   * The graph of files: those of `paths`, and with `entries` those that the entries lead to. A
   * module that can't be read or parsed has a `fault`.
   * @throws {ProgramEnd} the program can't be started, there is no module, or `close` was called before
   * @throws {TypeError} an option isn't what it has to be
   * @throws {Error} a folder or a page names no entry, a glob can't be read, or git lists nothing
   */
  graph(options: GraphOptions): Promise<Graph>;

  /** Waits for the calls under way. Later calls are rejected. */
  close(): Promise<void>;

  [Symbol.asyncDispose](): Promise<void>;
}

export interface ResolverOptions {
  /** The path or URL of a tsconfig.json for all files; else the nearest one of each file. */
  tsconfig?: string | Url;
  /** Conditions of `exports` and `imports`, besides node's own. */
  conditions?: string[];
  /**
   * Paths or URLs of the project's folders: what is in none of them, in no `node_modules` above one and in
   * no folder of NODE_PATH is `outside`. Else the module's repository, else the uppermost folder with a
   * package.json or a configuration.
   */
  root?: string | Url | (string | Url)[];
}

export interface ResolveOptions extends CallOptions, ResolverOptions {
  /** The URL of the module's file. */
  specifier: string | Url;
  /** Whether TypeScript, which must be installed, looks for `types`; else a declaration file beside is. */
  types?: boolean;
}

/** `paths` or `entries` are needed. */
export interface GraphOptions extends CallOptions, ResolverOptions {
  /** Files and folders, as paths or URLs. */
  paths?: (string | Url)[];
  /**
   * Files whose dependencies are followed, outside of `paths` too, but into no installed package; folders
   * with a package.json that names such files; and HTML pages with scripts.
   */
  entries?: (string | Url)[];
  /** Globs of files and folders that aren't listed, but followed. */
  exclude?: string[];
  /** Globs of files and folders that are neither listed nor followed. */
  ignore?: string[];
  /** Whether what git ignores isn't listed. */
  gitignore?: boolean;
  /** Whether to read what is in `node_modules` and in folders whose names begin with a dot. */
  all?: boolean;
  /** Whether to follow references of types, JSDoc and comments too, by TypeScript, which must be installed. */
  types?: boolean;
  /** Whether `import(..)` counts; true where it is missing. */
  dynamic?: boolean;
  /** Is asked first what a name leads to. */
  resolve?: ResolveHook;
  /** The most processes or threads; else as many as the `Modinfo` has. */
  jobs?: number;
}

declare global {
  // TypeScript has it since 5.2, in a library that not every configuration takes in.
  interface SymbolConstructor {
    readonly asyncDispose: unique symbol;
  }
}
