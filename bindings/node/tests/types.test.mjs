/** The types of the packages against the schemas, and the tests against the types of the packages. */

import assert from "node:assert/strict";
import { copyFileSync, existsSync } from "node:fs";
import { join } from "node:path";
import { test } from "node:test";
import { fileURLToPath } from "node:url";

import { folderOf } from "./run_commands.mjs";
import { readSchema } from "./schema.mjs";
import { check, compile, parserFolder } from "./compile.mjs";

const PACKAGES = fileURLToPath(new URL("..", import.meta.url));
/** Where npm and Debian's packages put the types of node. */
const NODE_TYPES = [join(PACKAGES, "node_modules/@types/node"), "/usr/share/nodejs/@types/node"];

const skip = !parserFolder("typescript") && "there is no TypeScript";

/** @typedef {import("./schema.mjs").Schema} Schema */

/**
 * The type of TypeScript that a schema describes.
 * @param {Schema} schema
 * @returns {string}
 */
function typeOf(schema) {
  if (schema === false) {
    return "never";
  }
  if (schema.$ref) {
    return schema.$ref.replace("#/$defs/", "");
  }
  if ("const" in schema) {
    return JSON.stringify(schema.const);
  }
  const choices = schema.enum?.map((/** @type {unknown} */ value) => JSON.stringify(value)) ??
    (schema.oneOf ?? schema.anyOf ?? arrayOf(schema.type))?.map(typeOf);
  return choices ? choices.join(" | ") : typeOfOne(schema);
}

/**
 * Of a schema that has several types one for each.
 * @param {unknown} type
 * @returns {Schema[] | undefined}
 */
function arrayOf(type) {
  return Array.isArray(type) ? type.map((each) => ({ type: each })) : undefined;
}

/**
 * @param {Schema} schema
 * @returns {string}
 */
function typeOfOne(schema) {
  switch (schema.type) {
    case "integer":
      return "number";
    case "array":
      return schema.prefixItems
        ? `[${schema.prefixItems.map(typeOf).join(", ")}]`
        : `(${typeOf(schema.items)})[]`;
    case "object":
      return objectOf(schema);
    default:
      return schema.type;
  }
}

/**
 * @param {Schema} schema
 * @returns {string}
 */
function objectOf({ properties, required = [], additionalProperties }) {
  if (!properties) {
    return `Record<string, ${typeOf(additionalProperties)}>`;
  }
  const members = Object.entries(properties)
    .map(([name, property]) => `${name}${required.includes(name) ? "" : "?"}: ${typeOf(property)};`);
  return `{ ${members.join(" ")} }`;
}

/**
 * A node: of each kind the members that all have and those that the kind adds.
 * @param {Schema} schema
 */
function nodeOf({ $defs }) {
  const { properties, required } = $defs.node;
  return properties.kind.enum.map((/** @type {string} */ kind) => {
    const own = $defs[kind];
    return objectOf({
      properties: { ...properties, ...own.properties, kind: { const: kind }, children: properties.children },
      required: [...required, ...(own.required ?? [])],
    });
  }).join(" | ");
}

/**
 * A module that exports the type which a schema describes.
 * @param {Schema} schema
 */
function moduleOf(schema) {
  const kinds = schema.$defs.node?.properties.kind.enum ?? [];
  const definitions = Object.entries(schema.$defs)
    .filter(([name]) => !kinds.includes(name))
    .map(([name, each]) => `type ${name} = ${name === "node" ? nodeOf(schema) : typeOf(each)};`);
  return [...definitions, `export type Root = ${typeOf(schema)};`].join("\n");
}

/** Types are the same where nothing differs. */
const SAME = `
type Same<A, B> = (<T>() => T extends A ? 1 : 2) extends (<T>() => T extends B ? 1 : 2) ? true : false;`;

/**
 * What makes another schema of each.
 * @type {Record<string, ((schema: Schema) => unknown)[]>}
 */
const CHANGES = {
  "module-info": [
    ({ $defs }) => delete $defs.staticDependency.properties.sideEffect,
    ({ $defs }) => $defs.dynamicDependency.properties.kind.enum.push("source"),
    ({ $defs }) => $defs.jsdocImport.required.pop(),
    ({ $defs }) => ($defs.position.prefixItems[0].type = "string"),
    ({ properties }) => (properties.url = { type: "string" }),
  ],
  document: [
    ({ $defs }) => delete $defs.ImportEquals.properties.isExport,
    ({ $defs }) => $defs.node.properties.kind.enum.pop(),
    ({ $defs }) => $defs.KeyValue.required.pop(),
    ({ $defs }) => $defs.NamedExport.properties.src.anyOf.pop(),
    ({ required }) => required.pop(),
  ],
  report: [
    ({ oneOf }) => oneOf.pop(),
    ({ $defs }) => delete $defs.faultReport.properties.valid,
    ({ $defs }) => $defs.faultReport.required.pop(),
    ({ $defs }) => $defs.documentFault.enum.pop(),
    ({ $defs }) => $defs.range.prefixItems.pop(),
    ({ $defs }) => delete $defs.validReport.properties.more,
    ({ $defs }) => ($defs.textPlace.properties.offset.type = "string"),
  ],
};

test("the types are what the schemas say", { skip }, () => {
  const folder = folderOf();
  /** @type {Record<string, string>} */
  const files = {};
  const checks = [SAME];
  for (const [name, file, type] of [
    ["module-info", "module_info", "ModuleInfo"],
    ["document", "module_document", "ModuleDocument"],
    ["report", "check_report", "Report"],
  ]) {
    copyFileSync(join(PACKAGES, `modinfo/dist/types/${file}.d.cts`), join(folder, `${file}.d.cts`));
    checks.push(`import type { ${type} } from "./${file}.cjs";`);
    for (const [at, change] of [() => {}, ...CHANGES[name]].entries()) {
      const schema = readSchema(name);
      change(schema);
      files[`${file}${at}.mts`] = moduleOf(schema);
      checks.push(`import type { Root as ${type}${at} } from "./${file}${at}.mjs";`);
      checks.push(`export const same${type}${at}: Same<${type}, ${type}${at}> = ${at === 0};`);
    }
  }
  assert.equal(compile(folder, { ...files, "checks.mts": checks.join("\n") }), "");
});

const noTypes = !NODE_TYPES.some(existsSync) && "node's types aren't there";

test("the tests keep the types that their comments and the packages say", { skip: skip || noTypes }, () => {
  assert.equal(check(join(PACKAGES, "tests/tsconfig.json")), "");
});
