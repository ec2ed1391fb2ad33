/** A validator of JSON Schema, for the keywords that the schemas in docs/ use. */

import { readFileSync } from "node:fs";

/**
 * A schema, with each keyword's value as JSON has it.
 * @typedef {any} Schema
 */

/** Keywords that say nothing of a value. */
const NOTES = new Set(["$schema", "$defs", "title", "description", "default", "examples", "then"]);

/**
 * @param {string} name
 * @returns {Schema}
 */
export function readSchema(name) {
  return JSON.parse(readFileSync(new URL(`../../../docs/${name}.schema.json`, import.meta.url), "utf8"));
}

/**
 * Where and why a value breaks a schema; nothing where it keeps it.
 * @param {unknown} value
 * @param {Schema} schema
 * @param {Schema} [root] the schema that has the definitions
 * @param {string} [path] of the value in the whole
 * @returns {string | undefined}
 */
export function fault(value, schema, root = schema, path = "") {
  if (schema === true) {
    return undefined;
  }
  if (schema === false) {
    return `${path}: not allowed`;
  }
  for (const keyword of Object.keys(schema)) {
    if (!NOTES.has(keyword) && !keyword.startsWith("x-")) {
      const found = faultOf(keyword, value, schema, root, path);
      if (found) {
        return found;
      }
    }
  }
  return undefined;
}

/**
 * @param {string} keyword
 * @param {unknown} value
 * @param {Schema} schema
 * @param {Schema} root
 * @param {string} path
 * @returns {string | undefined}
 */
function faultOf(keyword, value, schema, root, path) {
  const rule = schema[keyword];
  switch (keyword) {
    case "$ref":
      return fault(value, root.$defs[rule.replace("#/$defs/", "")], root, path);
    case "properties": case "additionalProperties": case "prefixItems": case "items":
      return firstFault(membersOf(keyword, value, schema), root, path);
    case "allOf":
      return faultsOf(value, rule, root, path).find(Boolean);
    case "oneOf":
      return oneOf(value, rule, root, path);
    case "if":
      return fault(value, rule, root, path) ? undefined : fault(value, schema.then ?? true, root, path);
    default:
      return holds(keyword, value, rule, root) ? undefined : `${path}: ${keyword} ${JSON.stringify(rule)}`;
  }
}

/**
 * Whether a value keeps a keyword that says something of the whole of it.
 * @param {string} keyword
 * @param {unknown} value
 * @param {any} rule the keyword's value, of a type by the keyword
 * @param {Schema} root
 * @returns {boolean}
 */
function holds(keyword, value, rule, root) {
  switch (keyword) {
    case "type":
      return [rule].flat().some((/** @type {string} */ type) => isOfType(value, type));
    case "const":
      return value === rule;
    case "enum":
      return rule.includes(value);
    case "minimum":
      return typeof value !== "number" || value >= rule;
    case "maximum":
      return typeof value !== "number" || value <= rule;
    case "minItems":
      return !Array.isArray(value) || value.length >= rule;
    case "maxItems":
      return !Array.isArray(value) || value.length <= rule;
    case "required":
      return !isObject(value) || rule.every((/** @type {string} */ name) => Object.hasOwn(value, name));
    case "anyOf":
      return faultsOf(value, rule, root, "").includes(undefined);
    default:
      throw new Error(`the keyword ${keyword} isn't known`);
  }
}

/**
 * The members of a value that a keyword is about, each with its name and its schema.
 * @param {string} keyword
 * @param {unknown} value
 * @param {Schema} schema
 * @returns {[string | number, unknown, Schema][]}
 */
function membersOf(keyword, value, schema) {
  const rule = schema[keyword];
  const members = isObject(value) ? value : {};
  const names = Object.keys(members);
  const items = Array.isArray(value) ? value : [];
  switch (keyword) {
    case "properties":
      return Object.keys(rule).filter((name) => names.includes(name))
        .map((name) => [name, members[name], rule[name]]);
    case "additionalProperties":
      return names.filter((name) => !schema.properties?.[name]).map((name) => [name, members[name], rule]);
    case "prefixItems":
      return items.slice(0, rule.length).map((item, at) => [at, item, rule[at]]);
    default:
      return items.slice(schema.prefixItems?.length ?? 0).map((item, at) => [at, item, rule]);
  }
}

/**
 * The first fault of some members; those after it aren't looked at.
 * @param {[string | number, unknown, Schema][]} entries
 * @param {Schema} root
 * @param {string} path
 */
function firstFault(entries, root, path) {
  for (const [name, member, schema] of entries) {
    const found = fault(member, schema, root, `${path}/${name}`);
    if (found) {
      return found;
    }
  }
  return undefined;
}

/**
 * @param {unknown} value
 * @param {Schema[]} rules
 * @param {Schema} root
 * @param {string} path
 */
function faultsOf(value, rules, root, path) {
  return rules.map((one) => fault(value, one, root, path));
}

/**
 * @param {unknown} value
 * @param {Schema[]} rule
 * @param {Schema} root
 * @param {string} path
 */
function oneOf(value, rule, root, path) {
  const faults = faultsOf(value, rule, root, path);
  const kept = faults.filter((found) => !found).length;
  const deepest = faults.reduce((one, other) => ((other?.length ?? 0) > (one?.length ?? 0) ? other : one));
  return kept === 1 ? undefined : `${path}: keeps ${kept} of oneOf (${deepest})`;
}

/**
 * @param {unknown} value
 * @param {string} type of JSON Schema
 */
function isOfType(value, type) {
  switch (type) {
    case "integer":
      return Number.isInteger(value);
    case "array":
      return Array.isArray(value);
    case "null":
      return value === null;
    case "object":
      return isObject(value);
    default:
      return typeof value === type;
  }
}

/**
 * @param {unknown} value
 * @returns {value is Record<string, unknown>}
 */
function isObject(value) {
  return typeof value === "object" && value !== null && !Array.isArray(value);
}
