/** The ranges in a module that name other modules, by its `ModuleInfo`, and the edges that they make. */

import type { DependencyDescriptor, ModuleInfo, ResolutionMode, SpecifierWithRange } from "modinfo";
import type { Edge, Ends, Reference, ReferenceKind, Resolution } from "./graph.cjs";

/** An object of a `ModuleInfo`, `node`, that names a module; `mode` is what an attribute or a comment asks for */
export interface Named extends Omit<Reference, "resolved"> {
  node: (DependencyDescriptor | SpecifierWithRange) & { resolved?: Resolution };
  syntax: Syntax;
  mode?: ResolutionMode;
}

/**
 * Which rules the specifier is resolved by; `types` is `/// <reference types=".." />`, `url` the `src` of a
 * page's script
 */
export type Syntax = "import" | "dynamic" | "require" | "types" | "path" | "jsx" | "augmentation" | "url";
const RUN_KINDS = new Set(["static", "dynamic", "require", "jsx"]);

/** The dependencies whose kind isn't their type, by their kinds in a `ModuleInfo`. */
const BY_WORD = new Map<string, readonly ["type" | "require", Syntax]>([
  ["importType", ["type", "import"]],
  ["exportType", ["type", "import"]],
  ["maybeTsModuleAugmentation", ["type", "augmentation"]],
  ["require", ["require", "require"]],
  ["importEquals", ["require", "require"]],
  ["exportEquals", ["require", "require"]],
]);

const PRAGMAS = [
  ["selfTypesSpecifier", "type", "import"],
  ["jsxImportSource", "jsx", "jsx"],
  ["jsxImportSourceTypes", "type", "jsx"],
] as const;

/** Whether a reference of a kind runs the module that it names. */
export const isRunKind = (kind: string): boolean => RUN_KINDS.has(kind);
/** Whether references of types, JSDoc and comments count, and those of `import(..)`: true where it is missing. */
export type Counted = { types?: boolean, dynamic?: boolean };

export function counts({ kind }: { kind: string }, { types = false, dynamic = true }: Counted): boolean {
  return isRunKind(kind) ? kind !== "dynamic" || dynamic : types;
}

/** The kind of a dependency of a `ModuleInfo`: its type, or that it is for types alone, or a `require`. */
export function kindOf({ type, kind = "import" }: { type: "static" | "dynamic", kind?: string }) {
  return BY_WORD.get(kind)?.[0] ?? type;
}

/** The text of an argument: its parts together; nothing where one of them isn't known. */
export function textOfArgument(argument: string | { type: string, value?: string }[] | undefined) {
  return !Array.isArray(argument) ? argument
    : argument.every(({ type }) => type === "string") ? argument.map(({ value }) => value).join("") : undefined;
}

/** All that names a module, in the order of the members of a `ModuleInfo`. */
export function namedBy(info: ModuleInfo): Named[] {
  const { dependencies = [], tsReferences = [], jsdocImports = [] } = info;
  const ofTypes = (node?: SpecifierWithRange) => (node ? [ofComment(node, "type", "import")] : []);
  return [
    ...dependencies.flatMap((node) => [ofDependency(node), ...ofTypes(node.typesSpecifier)]),
    ...tsReferences.map((node) => ofComment(node, "reference", node.type)),
    ...PRAGMAS.flatMap(([member, kind, syntax]) => {
      const node = info[member];
      return node ? [ofComment(node, kind, syntax)] : [];
    }),
    ...jsdocImports.map((node) => ofComment(node, "jsdoc", "import")),
  ];
}

/** The references of what has its `resolved`; a declaration file names all for its types alone. */
export function referencesOf(all: Named[], { isDeclaration }: { isDeclaration: boolean }): Reference[] {
  return all.filter(isReference).map(({ node, kind, specifier, argument, sideEffect, range }) => ({
    kind: isDeclaration && isRunKind(kind) ? "type" : kind, specifier, ...(argument && { argument }),
    ...(sideEffect && { sideEffect }), range, resolved: node.resolved as Resolution,
  }));
}

/**
 * The edges of a module, each once: each kind that runs leads to the file that runs, and by an edge of the
 * kind `type` to the file that has the types, where there is another one.
 */
export function edgesOf(from: string, references: Reference[]): Edge[] {
  const edges = new Map<string, Edge>();
  const add = (to: string | undefined, kind: ReferenceKind) => {
    const key = `${kind} ${to}`;
    if (to && !edges.has(key)) {
      edges.set(key, { from, to, kind });
    }
  };
  for (const { kind, resolved } of references) {
    const { file, types } = resolved as Ends;
    add(isRunKind(kind) ? file : types ?? file, kind);
    add(isRunKind(kind) ? types : undefined, "type");
  }
  return [...edges.values()];
}

/** What names nothing may be an ambient declaration, and no augmentation. */
function isReference({ syntax, node }: Named) {
  const { file, types } = node.resolved as Ends;
  return syntax !== "augmentation" || (file ?? types) !== undefined;
}

/** A dependency; the `src` of a page's script has `isUrl`. */
function ofDependency(node: DependencyDescriptor & { isUrl?: boolean }): Named {
  const { type, kind = "import", importAttributes } = node;
  const isStatic = type === "static";
  const specifier = isStatic ? node.specifier : textOfArgument(node.argument);
  const [own, syntax] = BY_WORD.get(kind) ?? [type, node.isUrl ? "url" : isStatic ? "import" : "dynamic"];
  const known = typeof importAttributes === "object" ? importAttributes.known : undefined;
  return {
    node, kind: own, syntax, specifier,
    argument: isStatic || typeof node.argument === "string" || specifier !== undefined ? undefined : node.argument,
    sideEffect: isStatic && node.sideEffect ? true : undefined,
    range: isStatic ? node.specifierRange : node.argumentRange,
    mode: modeOf(known?.["resolution-mode"]),
  };
}

function ofComment(
  node: SpecifierWithRange & { resolutionMode?: ResolutionMode }, kind: ReferenceKind, syntax: Syntax,
): Named {
  const { text: specifier, range, resolutionMode } = node;
  return { node, kind, syntax, specifier, range, mode: modeOf(resolutionMode) };
}

const modeOf = (word: unknown) => (word === "import" || word === "require" ? word : undefined);
