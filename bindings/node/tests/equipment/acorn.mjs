/** Runs acorn. */

import { loadParser } from "./installed_parsers.mjs";
import { withoutShebang } from "./shebang.mjs";

/** @typedef {{ tree: object, comments: { start: number, end: number }[] }} Parsed */

/**
 * The ways of parsing that are tried in turn.
 * @type {Record<string, ("module" | "script")[]>}
 */
const SOURCE_TYPES = {
  JavaScript: ["module", "script"],
  Jsx: ["module", "script"],
  Mjs: ["module"],
  Cjs: ["script"],
};

/** @type {any} */
let extended;

/**
 * @param {string} text
 * @param {string} mediaType
 * @returns {Parsed}
 * @throws {SyntaxError}
 */
export function parseWithAcorn(text, mediaType) {
  const parser = loadAcorn();
  const [first, ...others] = SOURCE_TYPES[mediaType];
  try {
    return parseAs(parser, withoutShebang(text), first);
  } catch (error) {
    if (!(error instanceof SyntaxError) || others.length === 0) {
      throw error;
    }
    return parseAs(parser, withoutShebang(text), others[0]);
  }
}

/** @returns {any} acorn's parser, with import attributes */
function loadAcorn() {
  const acorn = loadParser("acorn");
  extended ??= acorn.Parser.extend(
    (/** @type {any} */ Parser) => withClauses(Parser, acorn),
    withAttributes,
    (/** @type {any} */ Parser) => withOptions(Parser, acorn),
  );
  return extended;
}

/**
 * @param {any} parser
 * @param {string} text
 * @param {"module" | "script"} sourceType
 * @returns {Parsed}
 */
function parseAs(parser, text, sourceType) {
  /** @type {Parsed["comments"]} */
  const comments = [];
  /** @type {(isBlock: boolean, text: string, start: number, end: number) => void} */
  const onComment = (_isBlock, _text, start, end) => {
    comments.push({ start, end });
  };
  const tree = parser.parse(text, {
    ecmaVersion: "latest",
    sourceType,
    allowReturnOutsideFunction: sourceType === "script",
    preserveParens: true,
    onComment,
  });
  return { tree, comments };
}

/**
 * A clause of import attributes: `assert { .. }`, which acorn has never had, and `with { .. }`, which
 * acorn before 8.14 hasn't.
 * @param {any} Parser
 * @param {any} acorn
 */
function withClauses(Parser, { tokTypes }) {
  return class extends Parser {
    /** Where acorn has clauses, it reads them here. */
    parseWithClause() {
      return this.parseClause();
    }

    parseClause() {
      /** @type {any[]} */
      const attributes = [];
      const assert = this.isContextual("assert") && !this.canInsertSemicolon();
      if (!assert && this.type !== tokTypes._with) {
        return attributes;
      }
      this.next();
      this.expect(tokTypes.braceL);
      while (!this.eat(tokTypes.braceR)) {
        attributes.push(this.parseAttribute());
        if (this.type !== tokTypes.braceR) {
          this.expect(tokTypes.comma);
        }
      }
      return attributes;
    }

    parseAttribute() {
      const node = this.startNode();
      node.key = this.type === tokTypes.string ? this.parseExprAtom() : this.parseIdent(true);
      this.expect(tokTypes.colon);
      if (this.type !== tokTypes.string) {
        this.unexpected();
      }
      node.value = this.parseExprAtom();
      return this.finishNode(node, "ImportAttribute");
    }
  };
}

/**
 * Declarations with a clause after their source.
 * @param {any} Parser that reads clauses
 */
function withAttributes(Parser) {
  return class extends Parser {
    /** @param {any} node */
    parseImport(node) {
      this.declaration = node;
      return super.parseImport(node);
    }

    /**
     * @param {any} node
     * @param {any} exports
     */
    parseExport(node, exports) {
      this.declaration = node;
      return super.parseExport(node, exports);
    }

    /** Both kinds of declaration end here, their source just read. */
    semicolon() {
      const node = this.declaration;
      if (node?.source && node.attributes === undefined) {
        node.attributes = this.parseClause();
      }
      super.semicolon();
    }
  };
}

/**
 * The second argument of `import(..)`, which acorn before 8.14 hasn't.
 * @param {any} Parser
 * @param {any} acorn
 */
function withOptions(Parser, { tokTypes }) {
  return class extends Parser {
    /** @param {any} node */
    parseDynamicImport(node) {
      this.next();
      node.source = this.parseMaybeAssign();
      node.options = null;
      if (this.eat(tokTypes.comma) && this.type !== tokTypes.parenR) {
        node.options = this.parseMaybeAssign();
        this.eat(tokTypes.comma);
      }
      this.expect(tokTypes.parenR);
      return this.finishNode(node, "ImportExpression");
    }
  };
}
