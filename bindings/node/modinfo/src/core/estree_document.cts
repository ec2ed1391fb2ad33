/** The document that `modinfo analyze --estree` reads: of a parser's tree no more than the rules read. */

import type { EstreeNode, EstreeOptions, MediaType, Url } from "../types/calls.cjs";

/** Types of nodes that are statements of modules, dependencies or marks of a module, wherever they are. */
const RELEVANT = new Set([
  "ImportDeclaration", "ExportAllDeclaration", "ExportNamedDeclaration", "ExportDefaultDeclaration",
  "TSImportEqualsDeclaration", "TSImportType", "TSModuleDeclaration", "ImportExpression", "MetaProperty",
]);

/** Types of the nodes in these whose members are read too. */
const PARTS = new Set([
  "TSExternalModuleReference", "TSLiteralType", "Import", "ImportAttribute", "Property", "ObjectProperty",
  "ObjectExpression", "SpreadElement", "Identifier", "Literal", "StringLiteral", "TemplateLiteral",
  "TemplateElement", "BinaryExpression", "CallExpression",
]);

/** Names of callees whose calls are dependencies; some parsers have `import` as an identifier. */
const CALLED = new Set(["import", "require"]);

const FUNCTIONS = new Set(["FunctionDeclaration", "FunctionExpression", "ArrowFunctionExpression"]);
const METHODS = new Set(["ObjectMethod", "ClassMethod", "ClassPrivateMethod"]);
const OUTSIDE_OF_METHODS = new Set(["decorators", "key"]);

/** Members that aren't read. Some of them lead to a node above. */
const LEFT_OUT = new Set([
  "parent", "loc", "range", "start", "end", "tokens", "comments", "errors", "extra", "regex", "raw",
  "leadingComments", "trailingComments", "innerComments",
]);

/** A node of a tree, or a comment. */
interface Node extends EstreeNode {
  comments?: readonly EstreeNode[];
  program?: Node;
  directives?: Node[];
  body?: unknown;
  callee?: Node;
  name?: string;
  await?: boolean;
  kind?: string;
  decorators?: Node[];
  typeArguments?: object;
  typeParameters?: object;
}

/**
 * The JSON of the `EstreeDocument` of a parser's tree, with no more of the tree than the rules read.
 * @param tree the `Program` of ESTree or typescript-estree, or the `File` or `Program` of Babel
 * @param text as it was handed to the parser
 * @param specifier an absolute URL
 * @throws {TypeError} there are no comments
 * @throws {RangeError} the tree nests thousands of levels deep
 */
export function estreeDocument(
  tree: EstreeNode, text: string, specifier: string | Url, mediaType: MediaType, options: EstreeOptions = {},
): string {
  const root: Node = tree;
  const { comments = root?.comments, offsets } = options;
  if (!comments) {
    throw new TypeError("a tree needs its comments: pass the option comments");
  }
  const program = (root.type === "File" ? root.program : root) as Node;
  const body = [...(program.directives ?? []), ...(program.body as Node[])].map((each) => written(each, false));
  return JSON.stringify({
    specifier: typeof specifier === "string" ? specifier : specifier?.href, mediaType, source: text, offsets,
    comments: comments.map(rangeOf), program: { type: "Program", ...rangeOf(program), body },
  });
}

function rangeOf({ range, start, end }: EstreeNode) {
  return { start: range?.[0] ?? start, end: range?.[1] ?? end };
}

function membersOf(node: Node): [name: string, value: unknown][] {
  return Object.entries(node).filter(([name]) => !LEFT_OUT.has(name));
}

function isAwait({ type, await: isAwaited, kind }: Node) {
  return type === "AwaitExpression" || (type === "ForOfStatement" && isAwaited) ||
    (type === "VariableDeclaration" && kind === "await using");
}

/** @param inFunction whether an await is that of a function */
function isRelevant(node: Node, inFunction: boolean) {
  const { type, callee, typeArguments, typeParameters } = node;
  const isCall = type === "CallExpression" &&
    (callee?.type === "Import" || CALLED.has(callee?.name ?? "") || typeArguments || typeParameters);
  return RELEVANT.has(type) || isCall || (!inFunction && isAwait(node));
}

/** A node with its members where they are read, else with the relevant nodes below. */
function written(node: Node, inFunction: boolean): object {
  const { type, decorators } = node;
  if (PARTS.has(type) || isRelevant(node, inFunction)) {
    const members = membersOf(node).map(([name, value]) => [name, valueOf(value, inFunction)]);
    return { ...Object.fromEntries(members), ...rangeOf(node) };
  }
  // A statement begins with its decorators.
  const first = (decorators ?? []).slice(0, 1).map((each) => ({ type: "Other", ...rangeOf(each) }));
  return { type: "Other", ...rangeOf(node), decorators: first, body: relevantBelow(node, inFunction) };
}

function isNode(value: unknown): value is Node {
  return typeof (value as Node | null | undefined)?.type === "string";
}

/** @param value of a member */
function valueOf(value: unknown, inFunction: boolean): unknown {
  if (Array.isArray(value)) {
    return value.map((each) => valueOf(each, inFunction));
  }
  if (typeof value === "string" && /\p{Surrogate}/u.test(value)) {
    return Array.from({ length: value.length }, (_, at) => value.charCodeAt(at));
  }
  if (typeof value !== "object" || value === null) {
    return typeof value === "bigint" ? null : value;
  }
  // Else the text of a template's part, or a regular expression.
  const { cooked } = value as { cooked?: unknown };
  return isNode(value) ? written(value, inFunction) : { cooked: valueOf(cooked, inFunction) };
}

function relevantBelow(node: Node, inFunction: boolean): object[] {
  const { type } = node;
  return membersOf(node).flatMap(([name, value]) => {
    const isInside = inFunction || FUNCTIONS.has(type) || (METHODS.has(type) && !OUTSIDE_OF_METHODS.has(name));
    const nodes: unknown[] = Array.isArray(value) ? value : [value];
    return nodes.filter(isNode).flatMap((each) => {
      return isRelevant(each, isInside) ? written(each, isInside) : relevantBelow(each, isInside);
    });
  });
}
