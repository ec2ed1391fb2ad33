/**
 * Documents and answers as tests look at them: with the members of all kinds, since a test knows of which kind a node
 * or a dependency is. A member that is missing is found by its assertion.
 */

import type {
  ByteRange, DynamicTemplatePart, FiledComments, ImportAttributes, JsString, MediaType, ModuleInfo, PositionRange,
  SpecifierWithRange, StringLiteral,
} from "../modinfo/dist/index.js";
import type { Resolution } from "../modinfo-graph/dist/index.js";

export interface AnyDocument {
  specifier: string;
  mediaType: MediaType;
  source: string;
  program: AnyProgram;
  leading: FiledComments[];
  trailing: FiledComments[];
}

export interface AnyProgram {
  range: ByteRange;
  body: AnyNode[];
  shebang?: boolean;
}

export interface AnyNode {
  kind: string;
  range: ByteRange;
  children: AnyNode[];
  typeOnly?: boolean;
  phase?: "evaluation" | "source" | "defer";
  src: StringLiteral;
  external?: StringLiteral | null;
  arg?: StringLiteral;
  name?: StringLiteral | null;
  hasSpecifiers?: boolean;
  hasWith?: boolean;
  isExport?: boolean;
  callee: string;
  args: AnyArgument[];
  value: JsString;
  quasis: JsString[];
  op?: "add" | "other";
  key: { str?: JsString; ident?: string };
}

export interface AnyArgument {
  range: ByteRange;
  spread?: boolean;
}

export interface AnyInfo extends Omit<Required<ModuleInfo>, "script" | "dependencies" | "tsReferences"> {
  script?: boolean;
  dependencies: AnyDependency[];
  tsReferences: AnyReference[];
}

export interface AnyReference {
  type: "path" | "types";
  text: string;
  range: PositionRange;
  resolutionMode?: string;
}

export interface AnyDependency {
  type: "static" | "dynamic";
  kind?: string;
  typesSpecifier: SpecifierWithRange;
  specifier?: string;
  specifierRange: PositionRange;
  sideEffect?: boolean;
  argument?: string | DynamicTemplatePart[];
  argumentRange: PositionRange;
  importAttributes?: ImportAttributes;
  resolved?: Resolution;
}
