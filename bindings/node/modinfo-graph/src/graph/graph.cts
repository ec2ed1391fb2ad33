/** The graph of modules: what each module names, and what each name resolves to. */

import type {
  DependencyDescriptor, DynamicTemplatePart, JsDocImportInfo, ModuleInfo, Position, PositionRange,
  SpecifierWithRange, TypeScriptReference, Url,
} from "modinfo";

/**
 * The rules by which a name was found, where the first that find it count:
 *
 * - `importmap`: a deno.json, the import map that it names, or that of a page;
 * - `tsconfig`: `paths`, `baseUrl`, `rootDirs` or `outDir` of a tsconfig.json or jsconfig.json. A
 *   built-in module's name leads to a file only where `paths` has the whole name, or `browser` is one
 *   of the conditions;
 * - `node`: those of an import, or of a `require`, as node 20.20 has them;
 * - `bundler`: those of TypeScript's compiler and of bundlers, where node as it is finds nothing:
 *   names without an ending, an index, `./a.js` for `./a.ts`, queries, `browser` and `module` of a
 *   package.json, packages of a workspace.
 */
export type Rules = "node" | "bundler" | "tsconfig" | "importmap";

/**
 * What a name leads to. Files are URLs without symbolic links in them.
 *
 * `file` is what runs. `types` is the TypeScript or declaration file that has the types, where that
 * is another one: a declaration file that is all there is; and, where types are asked for, what
 * TypeScript finds by the nearest configuration that includes the file, else by
 * `"module": "NodeNext"` and `"allowJs": true`. `by` is there with `file` or `types`, except for a
 * triple-slash reference, and where TypeScript alone found something.
 */
export type Resolution =
  /** A module of the project. */
  | { class: "file"; file?: string; types?: string; by?: Rules }
  /** A module of an installed package. Without `file` and `types` the package isn't installed. */
  | { class: "package"; package: string; file?: string; types?: string; by?: Rules }
  /** A file that exists and is no module, as a style sheet is. */
  | { class: "asset"; file: string; types?: string; by?: Rules }
  /** A file or folder that a link or a path leads to, in no folder of the project. Nothing is read there. */
  | { class: "outside"; target: string }
  /** A module of node's own; a `data:` URL; a name of `npm:` or `jsr:`, as in Deno; another URL, as `https:`. */
  | { class: "builtin" } | { class: "data" } | { class: "npm" } | { class: "jsr" } | { class: "url" }
  /** `browser` of a package.json has `false` for it. */
  | { class: "disabled" }
  /** Nothing was found, or the name can be none: it is empty, has a NUL or more than 4,096 characters. */
  | { class: "missing" }
  /** The text of the specifier isn't known. */
  | { class: "unknown" };

/** What a resolution may have. */
export interface Ends extends Partial<Record<"file" | "types" | "package", string>> {
  class: Resolution["class"];
  by?: Rules;
}

/**
 * A reference of one of these kinds runs the module that it names: `import` and `export .. from`; `import(..)`;
 * `require(..)` and `import name = require(..)`; `@jsxImportSource`.
 */
export type RunKind = "static" | "dynamic" | "require" | "jsx";

/**
 * A reference of one of these kinds names a module for its types alone: `import type`, `declare module`,
 * `@ts-types`, and all that a declaration file imports; `import(..)` and `@import` in a JSDoc comment; a
 * triple-slash reference.
 */
export type TypeKind = "type" | "jsdoc" | "reference";
export type ReferenceKind = RunKind | TypeKind;

/** A range of a module that names another module. */
export interface Reference {
  kind: ReferenceKind;
  /** Missing where the text isn't known as a whole. */
  specifier?: string;
  /** The parts of the text, where only some are known. */
  argument?: DynamicTemplatePart[];
  /** Whether it is an import without names, which no compiler removes. */
  sideEffect?: true;
  range: PositionRange;
  resolved: Resolution;
}

/** A module leads to a file. Each pair of files has at most one edge of a kind. */
export interface Edge {
  from: string;
  to: string;
  kind: ReferenceKind;
}

export interface GraphModule {
  /** The URL of its file, without symbolic links in it. */
  specifier: string;
  /** In the order of the source, those of pragmas last. */
  references: Reference[];
  /** The file that this one was compiled from, where a configuration has it. */
  source?: string;
  /** Why the module couldn't be read or parsed; then it has the references of a component's other scripts. */
  fault?: { fault: string; message: string; line?: number; column?: number };
  /** Whether `exclude` or `gitignore` leaves it out of what is listed. */
  isExcluded?: true;
}

/** A module names something. */
export interface Mention {
  module: string;
  reference: Reference;
}

/** A step of a chain of imports; the first has neither `by` nor `builtAs`. */
export interface Step {
  module: string;
  by?: Mention;
  /** The module before, which was compiled from this one. */
  builtAs?: string;
}

/** Modules of which each leads to each other one. */
export interface Cycle {
  modules: string[];
  /** A shortest path from the first module back to it, without its end. */
  path: string[];
  /** Whether types alone may close it: a compiler removes imports of TypeScript whose names are all types. */
  perhapsOfTypes?: true;
}

/**
 * Why a module may be reached though nothing that is known as a whole leads to it:
 *
 * - `template`: the known parts of an argument match its path;
 * - `new URL` and those after it up to `__dirname`: a call or a name that a search finds in the text of a module;
 * - `text`: a string literal has its name, or is a glob that matches it;
 * - `condition`: `imports`, `exports` or `browser` of a package.json have it for other conditions; or it is for a
 *   platform;
 * - `alias`: a name of a bundler's alias ends as its path does;
 * - `output`: a file in a folder of outputs has the same path;
 * - `convention`: a framework that package.json lists loads files of this path;
 * - `script`: a script of a page, or one without an ending that a package.json names;
 * - `fault`, `ignored`: a file that can't be parsed, or an ignored one, has its name;
 * - `excluded`, `import`: an excluded file, or a module that may be reached itself, leads to it.
 */
export type ReasonKind =
  | "template" | "new URL" | "new Worker" | "require.resolve" | "import.meta.resolve" | "import.meta.glob"
  | "require.context" | "jest.mock" | "__dirname" | "text" | "condition" | "alias" | "output" | "convention"
  | "script" | "fault" | "excluded" | "ignored" | "import";

export interface Reason {
  kind: ReasonKind;
  /** The URL of the file that has it. */
  module: string;
  position?: Position;
  /** The name, with `${..}` for a part that isn't known. */
  text?: string;
}

/** The modules that no entry reaches by what runs. Each is in one of the lists. */
export interface Unreached {
  unreached: string[];
  mayBeReached: { module: string; reason: Reason }[];
  /** Reached by types, JSDoc or references alone. Empty where `types` is true. */
  byTypes: { module: string; by: Mention }[];
}

/**
 * Returns what a name leads to: a path or the URL of a file; null for nothing; undefined where the usual rules
 * count.
 * @param from the URL of the module that has the name
 */
export type ResolveHook = (
  specifier: string, from: string, options: { kind: ReferenceKind },
) => string | Url | null | undefined | Promise<string | Url | null | undefined>;

/** A graph of modules. As JSON it has `entries` and `modules`. */
export interface Graph {
  /** Those from which modules were followed. */
  readonly entries?: string[];
  /** Those that were named first, then those that were reached, in the order of their discovery. */
  readonly modules: GraphModule[];
  /** The cycles of what runs, and those that types close. */
  cycles(): { cycles: Cycle[]; typeCycles: Cycle[] };
  /** The modules of `paths` that no entry reaches. */
  unreached(): Promise<Unreached>;
  /** A shortest chain of imports from an entry to a file, by its path or URL. Empty where no entry reaches it. */
  why(file: string | Url): Step[];
  /** The URLs of the modules that lead to a file directly. */
  dependents(file: string | Url): string[];
  /** The references to what isn't found, or isn't installed. */
  missing(): Mention[];
}

/** A `ModuleInfo` in which each object that names a module has the member `resolved`. */
export interface ResolvedModuleInfo extends ModuleInfo {
  dependencies?: ResolvedDependency[];
  tsReferences?: (TypeScriptReference & Resolved)[];
  selfTypesSpecifier?: ResolvedSpecifier;
  jsxImportSource?: ResolvedSpecifier;
  jsxImportSourceTypes?: ResolvedSpecifier;
  jsdocImports?: (JsDocImportInfo & Resolved)[];
}

export type ResolvedDependency = DependencyDescriptor & Resolved & { typesSpecifier?: ResolvedSpecifier };

export interface Resolved {
  resolved: Resolution;
}

export type ResolvedSpecifier = SpecifierWithRange & Resolved;
