/** Compares the cycles of a package with those that a textbook's search finds over node's resolution. */

import { spawnSync } from "node:child_process";
import { existsSync, readFileSync, readdirSync, realpathSync } from "node:fs";
import { createRequire, isBuiltin } from "node:module";
import { join } from "node:path";
import { fileURLToPath } from "node:url";

import { loadParser } from "../bindings/node/tests/equipment/installed_parsers.mjs";

/**
 * @param {string} folder
 * @param {string} program the path of files.mjs
 * @returns {boolean} whether the sets of modules in cycles are the same
 */
export function compareCycles(folder, program) {
  if (!existsSync(folder)) {
    console.log(`${folder}: not installed`);
    return false;
  }
  const words = [program, "--cycles", "--json", "--all", "--jobs", "2", folder];
  const { stdout } = spawnSync(process.execPath, words, { maxBuffer: 1 << 30, stdio: ["ignore", "pipe", "inherit"] });
  const { cycles } = JSON.parse(stdout.toString());
  const own = normal(cycles.map(({ modules }) => modules.map((url) => fileURLToPath(url))));
  const expected = normal(cyclesByNode(folder));
  const isSame = own.join("\n") === expected.join("\n");
  const count = expected.reduce((sum, each) => sum + each.split(" ").length, 0);
  console.log(`${folder}: ${expected.length} cycles with ${count} modules, ${isSame ? "the same" : "DIFFERENT"}`);
  if (!isSame) {
    console.log(`  alone here: ${own.filter((each) => !expected.includes(each)).join("\n    ")}`);
    console.log(`  alone by node: ${expected.filter((each) => !own.includes(each)).join("\n    ")}`);
  }
  return isSame;
}

/** @param {string[][]} cycles */
function normal(cycles) {
  return cycles.map((modules) => modules.sort().join(" ")).sort();
}

/**
 * @param {string} folder
 * @returns {string[][]}
 */
function cyclesByNode(folder) {
  const acorn = loadParser("acorn");
  const entries = readdirSync(folder, { recursive: true, withFileTypes: true });
  const files = entries.filter((entry) => entry.isFile() && /\.[cm]?js$/.test(entry.name))
    .map((entry) => realpathSync(join(entry.path, entry.name)));
  const known = new Set(files);
  const next = new Map(files.map((file) => {
    const names = namesIn(acorn, readFileSync(file, "utf8"));
    return [file, names.map((name) => resolved(file, name)).filter((each) => known.has(each))];
  }));
  return tarjan(next);
}

/**
 * @param {string} file
 * @param {string} name
 */
function resolved(file, name) {
  try {
    return isBuiltin(name) ? undefined : createRequire(file).resolve(name);
  } catch {
    return undefined;
  }
}

/**
 * All strings that a text imports, exports from, or requires.
 * @param {any} acorn
 * @param {string} text
 * @returns {string[]}
 */
function namesIn(acorn, text) {
  const names = [];
  const walk = (node) => {
    const isCall = node.type === "CallExpression" && node.callee.name === "require";
    const literal = isCall ? node.arguments[0] : node.source;
    if (literal?.type === "Literal" && typeof literal.value === "string") {
      names.push(literal.value);
    }
    for (const value of Object.values(node)) {
      [value].flat().filter((each) => typeof each?.type === "string").forEach(walk);
    }
  };
  walk(parsed(acorn, text));
  return names;
}

/**
 * @param {any} acorn
 * @param {string} text
 */
function parsed(acorn, text) {
  const options = { ecmaVersion: "latest", allowHashBang: true, allowReturnOutsideFunction: true };
  for (const sourceType of ["script", "module"]) {
    try {
      return acorn.parse(text, { ...options, sourceType });
    } catch {
      // The next one may take it.
    }
  }
  return { type: "Program" };
}

/**
 * The strongly connected components in which there is an edge, as textbooks have it.
 * @param {Map<string, string[]>} next
 * @returns {string[][]}
 */
function tarjan(next) {
  const [found, stack, order, low] = [[], [], new Map(), new Map()];
  const visit = (node) => {
    order.set(node, order.size);
    low.set(node, order.get(node));
    stack.push(node);
    for (const to of next.get(node)) {
      if (!order.has(to)) {
        visit(to);
        low.set(node, Math.min(low.get(node), low.get(to)));
      } else if (stack.includes(to)) {
        low.set(node, Math.min(low.get(node), order.get(to)));
      }
    }
    if (low.get(node) === order.get(node)) {
      const component = stack.splice(stack.indexOf(node));
      if (component.length > 1 || next.get(node).includes(node)) {
        found.push(component);
      }
    }
  };
  [...next.keys()].forEach((node) => order.has(node) || visit(node));
  return found;
}
