/** From a tree of TypeScript's to one of ESTree, with the types of nodes that docs/ESTREE.md names; all others are `Other`. */

/**
 * @typedef {import("./parse.mjs").Node} Node
 * @typedef {import("./parse.mjs").Compiler} Compiler
 * @typedef {{ type: string, range: [number, number], [member: string]: unknown }} Estree
 */

/** White space and comments, after which a token begins. */
const TRIVIA = /(?:\s|\/\*[^]*?\*\/|\/\/.*)*/y;
/** Phases of `import.defer(..)` and `import.source(..)`. */
const PHASES = new Set(["defer", "source"]);
const FUNCTIONS = ["FunctionDeclaration", "FunctionExpression", "ArrowFunction"];
const METHODS = ["MethodDeclaration", "GetAccessor", "SetAccessor", "Constructor"];

/**
 * @param {Compiler} compiler
 * @param {Node} file
 * @returns {Estree} the `Program`
 */
export function estreeOf(compiler, file) {
  return new Writer(compiler, file).program();
}

class Writer {
  /**
   * The writers of nodes, by the numbers of their kinds, which differ from version to version.
   * @type {Map<number, (node: Node) => Estree>}
   */
  #writers;

  /**
   * @param {Compiler} compiler
   * @param {Node} file
   */
  constructor(compiler, file) {
    this.compiler = compiler;
    this.kinds = compiler.SyntaxKind;
    this.file = file;
    this.text = file.text;
    const writers = { ...this.declarations(), ...this.expressions(), ...this.functions() };
    this.#writers = new Map(Object.entries(writers).map(([name, write]) => [this.kinds[name], write.bind(this)]));
  }

  program() {
    return this.made("Program", this.file, { range: [0, this.file.end], body: this.all(this.file.statements) });
  }

  /** @returns {Record<string, (node: Node) => Estree>} */
  declarations() {
    return {
      ImportDeclaration: this.importDeclaration, ExportDeclaration: this.exportDeclaration,
      ImportEqualsDeclaration: this.importEquals, ModuleDeclaration: this.moduleDeclaration,
      ImportType: this.importType, ExportAssignment: this.exportAssignment,
      ForOfStatement: (node) => this.made("ForOfStatement", node, { await: Boolean(node.awaitModifier), body: this.below(node) }),
      VariableDeclarationList: (node) => this.made("VariableDeclaration", node, { kind: this.keyword(node), body: this.below(node) }),
    };
  }

  /** @returns {Record<string, (node: Node) => Estree>} */
  expressions() {
    return {
      CallExpression: this.call, MetaProperty: this.metaProperty, TemplateExpression: this.template,
      PropertyAssignment: this.property,
      Identifier: (node) => this.made("Identifier", node, { name: node.text }),
      StringLiteral: (node) => this.made("Literal", node, { value: node.text }),
      NoSubstitutionTemplateLiteral: (node) => this.made("TemplateLiteral", node, { quasis: [this.quasi(node, 1)], expressions: [] }),
      BinaryExpression: (node) => this.binary(node),
      ObjectLiteralExpression: (node) => this.made("ObjectExpression", node, { properties: this.all(node.properties) }),
      SpreadElement: (node) => this.made("SpreadElement", node, { argument: this.written(node.expression) }),
      AwaitExpression: (node) => this.made("AwaitExpression", node, { argument: this.written(node.expression) }),
    };
  }

  /** @returns {Record<string, (node: Node) => Estree>} */
  functions() {
    const ofFunction = (/** @type {Node} */ node) => this.made("FunctionExpression", node, { body: this.below(node) });
    return {
      ...Object.fromEntries(FUNCTIONS.map((name) => [name, ofFunction])),
      ...Object.fromEntries(METHODS.map((name) => [name, this.method])),
    };
  }

  /**
   * A node; one that is exported in the declaration that exports it.
   * @param {Node} node
   * @returns {Estree}
   */
  written(node) {
    const isExported = this.exportEnd(node) >= 0 && node.kind !== this.kinds.ImportEqualsDeclaration;
    const written = this.#writers.get(node.kind)?.(node) ?? this.other(node);
    if (!isExported) {
      return written;
    }
    const isDefault = node.modifiers.some((/** @type {Node} */ { kind }) => kind === this.kinds.DefaultKeyword);
    return this.made(isDefault ? "ExportDefaultDeclaration" : "ExportNamedDeclaration", node, { declaration: written });
  }

  /** @param {readonly Node[]} nodes */
  all(nodes) {
    return nodes.map((each) => this.written(each));
  }

  /**
   * @param {Node} node
   * @param {(child: Node) => boolean} [isTaken]
   */
  below(node, isTaken = () => true) {
    /** @type {Estree[]} */
    const children = [];
    this.compiler.forEachChild(node, (/** @type {Node} */ child) => {
      if (isTaken(child)) {
        children.push(this.written(child));
      }
    });
    return children;
  }

  /**
   * @param {string} type
   * @param {Node} node
   * @param {Record<string, unknown>} members
   * @returns {Estree}
   */
  made(type, node, members) {
    return { type, range: [this.start(node), node.end], ...members };
  }

  /** @param {Node} node */
  other(node) {
    return this.made("Other", node, { body: this.below(node) });
  }

  /** @param {Node} node */
  start(node) {
    return node.getStart(this.file, false);
  }

  /**
   * Where the token after an offset begins.
   * @param {number} offset
   */
  tokenStart(offset) {
    TRIVIA.lastIndex = offset;
    TRIVIA.test(this.text);
    return TRIVIA.lastIndex;
  }

  /**
   * Where the word `export` of a node ends, below 0 where it has none.
   * @param {Node} node
   */
  exportEnd({ modifiers }) {
    return modifiers?.find((/** @type {Node} */ { kind }) => kind === this.kinds.ExportKeyword)?.end ?? -1;
  }

  /** @param {Node} node */
  importDeclaration(node) {
    const { importClause: names, moduleSpecifier } = node;
    const bindings = names?.namedBindings;
    const hasSpecifiers = names?.name || (bindings && (bindings.elements?.length ?? 1) > 0);
    return this.made("ImportDeclaration", node, {
      importKind: names?.isTypeOnly ? "type" : "value",
      phase: names?.phaseModifier !== undefined && names.phaseModifier === this.kinds.DeferKeyword ? "defer" : null,
      source: this.literal(moduleSpecifier),
      specifiers: hasSpecifiers ? [this.made("ImportSpecifier", names, {})] : [],
      attributes: this.attributes(node.attributes ?? node.assertClause, "ImportAttribute"),
    });
  }

  /** @param {Node} node */
  exportDeclaration(node) {
    const { exportClause, isTypeOnly, moduleSpecifier } = node;
    return this.made(exportClause ? "ExportNamedDeclaration" : "ExportAllDeclaration", node, {
      exportKind: isTypeOnly ? "type" : "value",
      source: moduleSpecifier ? this.literal(moduleSpecifier) : null,
      attributes: this.attributes(node.attributes ?? node.assertClause, "ImportAttribute"),
    });
  }

  /** @param {Node} node */
  exportAssignment(node) {
    const type = node.isExportEquals ? "TSExportAssignment" : "ExportDefaultDeclaration";
    return this.made(type, node, { declaration: this.written(node.expression) });
  }

  /** @param {Node} node */
  importEquals(node) {
    const { moduleReference, isTypeOnly } = node;
    const isExternal = moduleReference.kind === this.kinds.ExternalModuleReference;
    return this.made("TSImportEqualsDeclaration", node, {
      importKind: isTypeOnly ? "type" : "value",
      isExport: this.exportEnd(node) >= 0,
      moduleReference: isExternal
        ? this.made("TSExternalModuleReference", moduleReference, { expression: this.literal(moduleReference.expression) })
        : this.other(moduleReference),
    });
  }

  /**
   * The word `export` is before the node, as it is in the declaration that exports it.
   * @param {Node} node
   */
  moduleDeclaration(node) {
    const exported = this.exportEnd(node);
    return this.made("TSModuleDeclaration", node, {
      range: [exported < 0 ? this.start(node) : this.tokenStart(exported), node.end],
      id: this.written(node.name),
      body: node.body ? this.written(node.body) : null,
    });
  }

  /**
   * The type begins at `import`, also where `typeof` is before it.
   * @param {Node} node
   */
  importType(node) {
    const start = this.start(node);
    const written = this.made("TSImportType", node, {
      range: [node.isTypeOf ? this.tokenStart(start + "typeof".length) : start, node.end],
      source: this.literal(node.argument.literal ?? node.argument),
      options: this.options(node.attributes ?? node.assertions?.assertClause),
      typeArguments: this.typeArguments(node),
    });
    return node.isTypeOf ? this.made("Other", node, { body: [written] }) : written;
  }

  /**
   * The options of an import type, `{ with: { .. } }`.
   * @param {Node | undefined} clause
   */
  options(clause) {
    if (!clause) {
      return null;
    }
    const range = [clause.elements.pos - 1, clause.end];
    const value = this.made("ObjectExpression", clause, { range, properties: this.attributes(clause, "Property") });
    const key = this.made("Identifier", clause, { name: "with" });
    const properties = [this.made("Property", clause, { key, value, kind: "init" })];
    return this.made("ObjectExpression", clause, { properties });
  }

  /**
   * @param {Node | undefined} clause
   * @param {string} type of an attribute
   */
  attributes(clause, type) {
    return (clause?.elements ?? []).map((/** @type {Node} */ each) =>
      this.made(type, each, { key: this.written(each.name), value: this.written(each.value), kind: "init" }));
  }

  /** @param {Node} node */
  typeArguments({ typeArguments: list }) {
    return list ? { type: "TSTypeParameterInstantiation", range: [list.pos, list.end], params: this.all(list) } : undefined;
  }

  /** @param {Node} node */
  call(node) {
    const { expression, questionDotToken } = node;
    const isImport = expression.kind === this.kinds.ImportKeyword;
    const phase = expression.kind === this.kinds.MetaProperty && expression.name.text;
    const list = this.all(node.arguments);
    if (PHASES.has(phase) && list.length > 0) {
      return this.made("ImportExpression", node, { phase, source: list[0], options: list[1] ?? null });
    }
    return this.made("CallExpression", node, {
      callee: isImport ? this.made("Import", expression, {}) : this.written(expression),
      optional: Boolean(questionDotToken),
      arguments: list,
      typeArguments: this.typeArguments(node),
    });
  }

  /** @param {Node} node */
  metaProperty(node) {
    const isImport = node.keywordToken === this.kinds.ImportKeyword;
    const start = this.start(node);
    const meta = this.made("Identifier", node, { name: isImport ? "import" : "new", range: [start, start + (isImport ? 6 : 3)] });
    return this.made("MetaProperty", node, { meta, property: this.written(node.name) });
  }

  /** @param {Node} node */
  template(node) {
    /** @type {{ head: Node, templateSpans: Node[] }} */
    const { head, templateSpans: spans } = node;
    const last = spans.length - 1;
    return this.made("TemplateLiteral", node, {
      quasis: [this.quasi(head, 2), ...spans.map(({ literal }, at) => this.quasi(literal, at === last ? 1 : 2))],
      expressions: spans.map(({ expression }) => this.written(expression)),
    });
  }

  /**
   * @param {Node} token
   * @param {number} closing the units of what ends it
   */
  quasi(token, closing) {
    const range = [this.start(token) + 1, token.end - closing];
    return this.made("TemplateElement", token, { range, value: { cooked: token.templateFlags ? null : token.text } });
  }

  /** @param {Node} node */
  binary(node) {
    const { left, operatorToken, right } = node;
    const operator = this.text.slice(this.start(operatorToken), operatorToken.end);
    return this.made("BinaryExpression", node, { operator, left: this.written(left), right: this.written(right) });
  }

  /** @param {Node} node */
  property(node) {
    const { name, initializer } = node;
    const isComputed = name.kind === this.kinds.ComputedPropertyName;
    return this.made("Property", node, {
      key: this.written(isComputed ? name.expression : name), computed: isComputed, kind: "init", value: this.written(initializer),
    });
  }

  /**
   * Decorators and a computed name are outside of the method's function.
   * @param {Node} node
   */
  method(node) {
    const { Decorator, ComputedPropertyName } = this.kinds;
    const isOutside = (/** @type {Node} */ { kind }) => kind === Decorator || kind === ComputedPropertyName;
    const value = this.made("FunctionExpression", node, { body: this.below(node, (child) => !isOutside(child)) });
    return this.made("Other", node, { body: [...this.below(node, isOutside), value] });
  }

  /**
   * The words that a list of variables begins with, as far as they matter.
   * @param {Node} node
   */
  keyword({ flags }) {
    const { AwaitUsing, BlockScoped } = this.compiler.NodeFlags;
    return AwaitUsing !== undefined && (flags & BlockScoped) === AwaitUsing ? "await using" : "";
  }

  /**
   * @param {Node} node
   * @throws {SyntaxError} it is another expression
   */
  literal(node) {
    if (node.kind !== this.kinds.StringLiteral) {
      throw new SyntaxError("String literal expected.");
    }
    return this.written(node);
  }
}
