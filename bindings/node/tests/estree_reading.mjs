/**
 * Makes the module document of a parser's tree, as plainly as can be, for tests alone: it shares nothing with the program's
 * own reading of trees.
 *
 * Every node becomes one node of the document, except a method of Babel, which becomes two, and an expression in
 * parentheses, which is inside an `Other`. Nothing is left out, so that the document may be too deep for the program.
 * Comments have a shorter rule than in the program; the texts where that shows are listed in estree_texts.mjs.
 *
 * Names of nodes and members are those of the ESTree specification (JavaScript), of typescript-estree's AST
 * specification (names with `TS`), and of Babel's AST specification (`File`, `Import`, `directives`, literals,
 * properties and methods of its own).
 *
 * @typedef {any} Value a node or a comment of the input, whose members depend on its type
 * @typedef {import("./any_kind.mjs").AnyArgument} AnyArgument
 * @typedef {import("./any_kind.mjs").AnyNode} AnyNode
 * @typedef {import("../modinfo/dist/index.js").ByteRange} ByteRange
 * @typedef {import("../modinfo/dist/index.js").DocumentComment} DocumentComment
 * @typedef {import("../modinfo/dist/index.js").FiledComments} FiledComments
 * @typedef {import("../modinfo/dist/index.js").JsString} JsString
 * @typedef {import("../modinfo/dist/index.js").StringLiteral} StringLiteral
 */

/**
 * A parsed module, as JSON has it: no bigint, no link to a parent. Offsets count UTF-16 units.
 * @typedef {object} Input
 * @property {string} specifier
 * @property {string} mediaType
 * @property {string} source
 * @property {Value} program the `Program`, or Babel's `File`
 * @property {Value[]} [comments] else those of `program`
 */

/** The method that reads a type of node. A type that isn't here is an `Other`. */
const METHODS = new Map(Object.entries({
  ImportDeclaration: "importDeclaration",
  ExportNamedDeclaration: "exportDeclaration",
  ExportAllDeclaration: "exportDeclaration",
  ExportDefaultDeclaration: "exportOther",
  TSImportEqualsDeclaration: "importEquals",
  TSModuleDeclaration: "moduleDeclaration",
  TSImportType: "importType",
  CallExpression: "call",
  ImportExpression: "importCall",
  Literal: "string",
  StringLiteral: "string",
  TemplateLiteral: "template",
  BinaryExpression: "binary",
  Identifier: "identifier",
  ObjectExpression: "object",
  Property: "property",
  ObjectProperty: "property",
  ImportAttribute: "property",
  AwaitExpression: "awaiting",
  ForOfStatement: "forOf",
  VariableDeclaration: "variables",
  MetaProperty: "metaProperty",
  FunctionDeclaration: "function",
  FunctionExpression: "function",
  ArrowFunctionExpression: "function",
  ObjectMethod: "method",
  ClassMethod: "method",
  ClassPrivateMethod: "method",
}));

/** Callees of `import.source(..)` and `import.defer(..)` by the member `phase`. */
const CALLEES = new Map(Object.entries({ source: "importSource", defer: "importDefer" }));

const SHEBANG = /^\uFEFF?#!/;
/** ECMAScript's line terminators. */
const LINE_BREAK = /[\n\r\u2028\u2029]/;

/**
 * The module document of a parsed module.
 * @param {Input} input
 * @returns {any}
 */
export function readEstree(input) {
  const { source, program } = input;
  const root = program.type === "File" ? program.program : program;
  const body = [...(root.directives ?? []), ...root.body];
  return new Reading(source, input.comments ?? program.comments).document(input, body);
}

/**
 * Offset of a node or a comment in UTF-16 units: by `range`, as espree and typescript-estree write it, or by
 * `start`, as acorn and Babel do.
 * @param {Value} value
 * @returns {number}
 */
function start(value) {
  return value.range?.[0] ?? value.start;
}

/**
 * Offset after a node or a comment in UTF-16 units.
 * @param {Value} value
 * @returns {number}
 */
function end(value) {
  return value.range?.[1] ?? value.end;
}

/**
 * Whether a member's value is a node: ESTree's nodes are the objects with a string `type`.
 * @param {Value} value
 * @returns {boolean}
 */
function isNode(value) {
  return typeof value?.type === "string";
}

/** Reads the nodes and comments of one text. */
class Reading {
  /**
   * @param {string} text
   * @param {Value[]} comments in the order of the text
   */
  constructor(text, comments) {
    this.text = text;
    this.bytes = byteOffsets(text);
    this.comments = comments;
    /** Ends of comments by their starts. */
    this.ends = new Map(comments.map((each) => [start(each), end(each)]));
    /** Starts of comments by their ends. */
    this.starts = new Map(comments.map((each) => [end(each), start(each)]));
  }

  /**
   * The document: its program is the whole text, whatever the range of the `Program` is, which some parsers begin
   * at the first token.
   * @param {Input} input
   * @param {Value[]} body
   */
  document({ specifier, mediaType, source }, body) {
    const shebang = SHEBANG.test(source);
    return {
      specifier,
      mediaType,
      source,
      program: { range: this.range(0, source.length), body: body.map((each) => this.statement(each)), shebang },
      ...this.filedComments(body.length === 0 && !shebang),
    };
  }

  /**
   * A range in bytes of UTF-8.
   * @param {number} from in UTF-16 units
   * @param {number} to in UTF-16 units
   * @returns {ByteRange}
   */
  range(from, to) {
    return [this.bytes[from], this.bytes[to]];
  }

  /**
   * The node of a statement, with a range that begins at its first decorator. Babel begins `@a export class B {}`
   * at `export`.
   * @param {Value} node
   * @returns {AnyNode}
   */
  statement(node) {
    const decorators = (node.declaration ?? node).decorators ?? [];
    const from = Math.min(start(node), ...decorators.map(start));
    return { ...this.node(node), range: this.range(from, end(node)) };
  }

  // Tokens. Between two tokens are only white space and comments.

  /**
   * Start of the first token that begins at an offset or after it; the text's length where there is none.
   * @param {number} offset in UTF-16 units, as all of these
   * @returns {number}
   */
  tokenStart(offset) {
    let at = offset;
    while (isSpace(this.text[at]) || this.ends.has(at)) {
      at = this.ends.get(at) ?? at + 1;
    }
    return at;
  }

  /**
   * End of the last token that ends at an offset or before it; 0 where there is none.
   * @param {number} offset
   * @returns {number}
   */
  tokenEnd(offset) {
    let at = offset;
    while (isSpace(this.text[at - 1]) || this.starts.has(at)) {
      at = this.starts.get(at) ?? at - 1;
    }
    return at;
  }

  // Comments

  /**
   * The comments that begin with `//` or `/*`. A parser may list a `#!` line, `<!--` and `-->` too, which are only
   * passed over between tokens.
   * @param {boolean} isEmpty whether the text has no token
   * @returns {{ leading: FiledComments[], trailing: FiledComments[] }}
   */
  filedComments(isEmpty) {
    /** @type {{ leading: FiledComments[], trailing: FiledComments[] }} */
    const filed = { leading: [], trailing: [] };
    for (const comment of this.comments) {
      const [from, to] = [start(comment), end(comment)];
      const opening = this.text.slice(from, from + 2);
      if (opening === "//" || opening === "/*") {
        const kind = opening === "//" ? "line" : "block";
        const { side, offset } = this.place(comment, kind, isEmpty);
        const text = this.text.slice(from + 2, kind === "line" ? to : to - 2);
        file(filed[side], this.bytes[offset], { kind, range: this.range(from, to), text });
      }
    }
    return filed;
  }

  /**
   * Where a comment is filed: as leading at the start of the token after it, or as trailing at the end of the token
   * before it; after the last token as trailing at the text's end; in a text without tokens as leading at 0.
   * @param {Value} comment
   * @param {"line" | "block"} kind
   * @param {boolean} isEmpty
   * @returns {{ side: "leading" | "trailing", offset: number }} in UTF-16 units
   */
  place(comment, kind, isEmpty) {
    const next = this.tokenStart(end(comment));
    if (next === this.text.length) {
      return isEmpty ? { side: "leading", offset: 0 } : { side: "trailing", offset: next };
    }
    const last = this.tokenEnd(start(comment));
    const trails = this.trails(comment, kind, last);
    return trails ? { side: "trailing", offset: last } : { side: "leading", offset: next };
  }

  /**
   * Whether a comment belongs to the token before it: a line comment on that token's line does, and a block comment
   * there after `;`, `{` or `}`.
   * @param {Value} comment
   * @param {"line" | "block"} kind
   * @param {number} last end of the token before it, 0 where there is none
   * @returns {boolean}
   */
  trails(comment, kind, last) {
    const isOnLine = last > 0 && !LINE_BREAK.test(this.text.slice(last, start(comment)));
    return isOnLine && (kind === "line" || /[;{}]/.test(this.text[last - 1]));
  }

  // Nodes

  /**
   * @param {Value} node
   * @returns {AnyNode}
   */
  node(node) {
    const method = METHODS.get(node.type) ?? "other";
    return /** @type {any} */ (this)[method](node);
  }

  /**
   * @param {Value[]} nodes
   * @returns {AnyNode[]}
   */
  nodes(nodes) {
    return nodes.map((each) => this.node(each));
  }

  /**
   * The nodes in a node's members, by their starts: parsers order members by other rules, as `consequent` before
   * `test` in a `SwitchCase`.
   * @param {Value} node
   * @param {Value[]} [except] members or items of members that are left out
   * @returns {AnyNode[]}
   */
  children(node, except = []) {
    const found = Object.values(node).flat().filter((each) => isNode(each) && !except.includes(each));
    return this.nodes(found.sort((one, other) => start(one) - start(other)));
  }

  /**
   * A node of the document with the range of a node of the tree.
   * @param {string} kind
   * @param {Value} node
   * @param {object} [members]
   * @param {AnyNode[]} [children]
   * @returns {any}
   */
  made(kind, node, members = {}, children = this.children(node)) {
    return { kind, range: this.range(start(node), end(node)), ...members, children };
  }

  /** @param {Value} node */
  other(node) {
    return this.made("Other", node);
  }

  /**
   * @param {Value} node a string literal
   * @returns {StringLiteral}
   */
  literal(node) {
    return { value: jsString(node.value), range: this.range(start(node), end(node)) };
  }

  // Declarations

  /** @param {Value} node */
  importDeclaration(node) {
    return this.withSource("ImportDecl", node, {
      typeOnly: node.importKind === "type",
      phase: node.phase ?? "evaluation",
      hasSpecifiers: node.specifiers.length > 0,
    });
  }

  /**
   * An export with or without a source. The analysis does not tell `export * from` and `export { .. } from` apart.
   * @param {Value} node
   */
  exportDeclaration(node) {
    if (node.source) {
      return this.withSource("NamedExport", node, { typeOnly: node.exportKind === "type" });
    }
    const { declaration } = node;
    return declaration?.type === "TSImportEqualsDeclaration"
      ? this.importEquals(declaration, true, node) : this.exportOther(node);
  }

  /** @param {Value} node */
  exportOther(node) {
    return this.made("ExportOther", node);
  }

  /**
   * A declaration with a source. It has a clause if it has attributes, or if any token but `;` follows the source:
   * in the tree `with {}` looks like no clause. Import attributes are `assertions` in older trees.
   * @param {string} kind
   * @param {Value} node
   * @param {object} members
   */
  withSource(kind, node, members) {
    const attributes = node.attributes ?? node.assertions ?? [];
    const following = this.tokenStart(end(node.source));
    const hasWith = attributes.length > 0 || (following < end(node) && this.text[following] !== ";");
    const clause = hasWith ? [this.made("Object", node, {}, this.nodes(attributes))] : [];
    return this.made(kind, node, { ...members, src: this.literal(node.source), hasWith }, clause);
  }

  /**
   * `import a = require("a")`; an `Other` if it is `import a = b.c`. Babel has `isExport`, typescript-estree an
   * export around the declaration.
   * @param {Value} node
   * @param {boolean} [isExport]
   * @param {Value} [outer] the statement
   */
  importEquals(node, isExport = node.isExport ?? false, outer = node) {
    const { moduleReference, importKind } = node;
    if (moduleReference.type !== "TSExternalModuleReference") {
      return this.other(outer);
    }
    const external = this.literal(moduleReference.expression);
    return this.made("ImportEquals", outer, { typeOnly: importKind === "type", isExport, external }, []);
  }

  /** @param {Value} node */
  moduleDeclaration(node) {
    return isString(node.id) ? this.made("ModuleDecl", node, { name: this.literal(node.id) }) : this.other(node);
  }

  /**
   * `import("a")` as a type. Its specifier is `source`, or `argument` in older trees of typescript-estree (a
   * `TSLiteralType`) and of Babel (the literal).
   * @param {Value} node
   */
  importType(node) {
    const { argument, source = argument.literal ?? argument, options } = node;
    const clause = (options?.properties ?? []).find((/** @type {Value} */ each) => isClause(each))?.value;
    return this.made("ImportType", node, { arg: this.literal(source), hasWith: clause !== undefined },
      [...(clause ? [this.node(clause)] : []), ...this.children(node, [options])]);
  }

  // Calls

  /**
   * A call, with its callee, its arguments, and then all other nodes; an optional call is an `Other`.
   * @param {Value} node
   */
  call(node) {
    const { callee, optional, arguments: given } = node;
    if (optional) {
      return this.other(node);
    }
    const isImport = callee.type === "Import";
    return this.made("Call", node, { callee: isImport ? "import" : "expr", args: this.args(node, given) }, [
      ...(isImport ? [] : this.argumentNodes(node, [callee])),
      ...this.argumentNodes(node, given),
      ...this.children(node, [callee, ...given]),
    ]);
  }

  /**
   * An `ImportExpression`, whose second argument is `options`, or `attributes` in older trees.
   * @param {Value} node
   */
  importCall(node) {
    const given = [node.source, node.options ?? node.attributes].filter(isNode);
    const callee = CALLEES.get(node.phase) ?? "import";
    return this.made("Call", node, { callee, args: this.args(node, given) }, this.argumentNodes(node, given));
  }

  /**
   * @param {Value} call
   * @param {Value[]} given
   * @returns {AnyArgument[]}
   */
  args(call, given) {
    return given.map((each) => ({
      range: this.range(...this.outermost(call, start(each), end(each))),
      spread: each.type === "SpreadElement",
    }));
  }

  /**
   * @param {Value} call
   * @param {Value[]} given
   * @returns {AnyNode[]}
   */
  argumentNodes(call, given) {
    return given.map((each) => this.between(each, ...this.outermost(call, start(each), end(each))));
  }

  /**
   * The range of an argument with the parentheses around it, but without those that end the call.
   * @param {Value} call
   * @param {number} from
   * @param {number} to
   * @returns {[from: number, to: number]} in UTF-16 units
   */
  outermost(call, from, to) {
    const open = this.tokenEnd(from) - 1;
    const close = this.tokenStart(to);
    const isAround = this.text[open] === "(" && this.text[close] === ")" && close + 1 < end(call);
    return isAround ? this.outermost(call, open, close + 1) : [from, to];
  }

  /**
   * The node of an expression that takes a range: inside an `Other` where the range is wider than the expression,
   * which is then in parentheses.
   * @param {Value} node
   * @param {number} from
   * @param {number} to
   * @returns {any}
   */
  between(node, from, to) {
    return from < start(node) || end(node) < to
      ? { kind: "Other", range: this.range(from, to), children: [this.node(node)] } : this.node(node);
  }

  // Expressions

  /** @param {Value} node */
  string(node) {
    return isString(node) ? this.made("Str", node, { value: jsString(node.value) }) : this.other(node);
  }

  /**
   * A template, or an `Other` where `cooked` is null, as ESTree has it for an escape that is no text.
   * @param {Value} node
   */
  template(node) {
    const quasis = node.quasis.map((/** @type {Value} */ { value }) => value.cooked);
    return quasis.every((/** @type {unknown} */ each) => typeof each === "string")
      ? this.made("Template", node, { quasis: quasis.map(jsString) }, this.nodes(node.expressions)) : this.other(node);
  }

  /**
   * A binary expression. Its left operand begins where it does, and its right one ends there, but for parentheses.
   * @param {Value} node
   */
  binary(node) {
    const { left, operator, right } = node;
    return this.made("Binary", node, { op: operator === "+" ? "add" : "other" },
      [this.between(left, start(node), end(left)), this.between(right, start(right), end(node))]);
  }

  /** @param {Value} node */
  identifier(node) {
    return this.made("Ident", node, { value: node.name });
  }

  /** @param {Value} node */
  object(node) {
    return this.made("Object", node, {}, this.nodes(node.properties));
  }

  /**
   * A `key: value`, whose value ends where it does, but for parentheses; any other property is an `Other`.
   * @param {Value} node
   */
  property(node) {
    const { key, value } = node;
    return isKeyValue(node)
      ? this.made("KeyValue", node, { key: keyOf(node) }, [this.node(key), this.between(value, start(value), end(node))])
      : this.other(node);
  }

  // Nodes that decide whether the text is a script

  /** @param {Value} node */
  awaiting(node) {
    return this.made("Await", node);
  }

  /** @param {Value} node */
  forOf(node) {
    return this.made(node.await ? "Await" : "Other", node);
  }

  /** @param {Value} node */
  variables(node) {
    return this.made(node.kind === "await using" ? "Await" : "Other", node);
  }

  /** @param {Value} node */
  metaProperty(node) {
    const isImportMeta = node.meta.name === "import" && node.property.name === "meta";
    return this.made(isImportMeta ? "ImportMeta" : "Other", node);
  }

  /** @param {Value} node */
  function(node) {
    return this.made("Function", node);
  }

  /**
   * A method of Babel. Its decorators and its computed name are outside of the function, as they are in ESTree,
   * where the function is the member `value`.
   * @param {Value} node
   */
  method(node) {
    const outside = [...(node.decorators ?? []), ...(node.computed ? [node.key] : [])];
    const inside = this.made("Function", node, {}, this.children(node, outside));
    return this.made("Other", node, {}, [...this.nodes(outside), inside]);
  }
}

/**
 * Whether a node is a string literal. Babel's `NumericLiteral` and `BigIntLiteral` are none, whatever their value.
 * @param {Value} node
 * @returns {boolean}
 */
function isString({ type, value, bigint }) {
  return typeof value === "string" && (type === "Literal" || type === "StringLiteral") && bigint === undefined;
}

/**
 * Whether a property is `key: value`, no method, accessor or shorthand.
 * @param {Value} node
 * @returns {boolean}
 */
function isKeyValue({ type, kind = "init", method, shorthand }) {
  return type === "ImportAttribute" ||
    ((type === "Property" || type === "ObjectProperty") && kind === "init" && !method && !shorthand);
}

/**
 * Whether a property of an import's options is its attributes.
 * @param {Value} node
 * @returns {boolean}
 */
function isClause(node) {
  return isKeyValue(node) && ["ident", "str"].some((member) => ["with", "assert"].includes(keyOf(node)[member]));
}

/**
 * The key of a property: an identifier, a string, or `other`.
 * @param {Value} node
 * @returns {any}
 */
function keyOf({ key, computed }) {
  if (!computed && key.type === "Identifier") {
    return { ident: key.name };
  }
  return !computed && isString(key) ? { str: jsString(key.value) } : "other";
}

/**
 * Adds a comment to those filed at a position.
 * @param {FiledComments[]} filed
 * @param {number} pos in bytes
 * @param {DocumentComment} comment
 */
function file(filed, pos, comment) {
  const entry = filed.find((each) => each.pos === pos);
  if (entry) {
    entry.comments.push(comment);
  } else {
    filed.push({ pos, comments: [comment] });
  }
}

/**
 * Whether a character is white space or a line terminator of ECMAScript, which is what `\s` matches.
 * @param {string | undefined} character
 * @returns {boolean}
 */
function isSpace(character) {
  return character !== undefined && /\s/.test(character);
}

/**
 * A text, or its UTF-16 units if it has a lone surrogate.
 * @param {string} value
 * @returns {JsString}
 */
function jsString(value) {
  return /\p{Surrogate}/u.test(value) ? Array.from({ length: value.length }, (_, at) => value.charCodeAt(at)) : value;
}

/**
 * For each offset in UTF-16 units the offset in bytes of UTF-8. The text has no lone surrogate, so that each half of
 * a pair counts two of its four bytes.
 * @param {string} text
 * @returns {number[]}
 */
function byteOffsets(text) {
  const offsets = [0];
  for (let at = 0; at < text.length; at++) {
    const character = text[at];
    offsets.push(offsets[at] + (/[\uD800-\uDFFF]/.test(character) ? 2 : Buffer.byteLength(character)));
  }
  return offsets;
}
