/** Makes packages at random, with manifests, files and links, and names that may lead into them. */

import { mkdirSync, realpathSync, symlinkSync, writeFileSync } from "node:fs";
import { dirname, join } from "node:path";

/**
 * Numbers from 0 to below 1, always the same for a seed (mulberry32).
 * @param {number} seed
 * @returns {() => number}
 */
function randomOf(seed) {
  let state = seed;
  return () => {
    state = (state + 0x6d2b79f5) | 0;
    let mixed = Math.imul(state ^ (state >>> 15), 1 | state);
    mixed = (mixed + Math.imul(mixed ^ (mixed >>> 7), 61 | mixed)) ^ mixed;
    return ((mixed ^ (mixed >>> 14)) >>> 0) / 2 ** 32;
  };
}

const PACKAGES = ["p", "q", "r.js", "@s/p", "@s/q", "own"];
const FOLDERS = ["", "lib", "lib/deep", "a", "lib/node_modules"];
const FILES = [
  "a.js", "b.js", "b.mjs", "c.cjs", "c.json", "d.node", "index.js", "index.json", "a", "x y.js", "é.js", "%61.js", "a#b.js",
  "a?b.js", "a.js.js", "*.js", "..x.js",
];
const CONDITIONS = ["import", "require", "node", "default", "module-sync", "node-addons", "special", "browser", "types"];
const SUBPATHS = [
  ".", "./a", "./a.js", "./b", "./b.js", "./*", "./*.js", "./a/*", "./lib/*", "./lib/*.js", "./a*b", "./a/*/b", "./**", "./",
  "./a/", "./lib/", "./%61", "./l*b.js", "./lib/deep/*", "./__proto__", "./x y", "./c.json",
];
const IMPORTS = ["#a", "#b", "#a/*", "#*", "#a*", "#lib/*.js", "#", "#/", "#/*", "#a/", "#__proto__", "#q", "#fs", "a"];
// None is empty, and none begins with #: node takes `node_modules` itself for the package of that name.
const TARGETS = [
  "./a.js", "./a", "./b.mjs", "./b.js", "./lib/*.js", "./lib/*", "./*", "./*.js", "./lib/a.js", "../own.js", "/abs.js", "a.js",
  "./node_modules/q/a.js", "./lib/../b.js", "./lib/%2e%2e/b.js", "./%61.js", "./lib%2fa.js", "./a.js?x", "./a.js#y", "./none.js",
  "./lib", "./lib/", "./", ".", "q", "q/a.js", "q/*", "@s/q", "fs", "node:fs", "node:none", "https://x.test/y.js",
  "./x y.js", "./é.js", "./*/*.js", "./lib//a.js", "./c.json", "./index", "./\ta.js", "data:text/javascript,1", "own", "own/a",
];
const MAINS = ["a.js", "./a", "lib", "lib/", "./lib/a.js", "none.js", "none", "", ".", "./", "../p/a.js", "b", "a.js?x", "index", "%61.js"];
const ENDINGS = ["", "", "", "", ".js", "/", "?x", "#y", "/.", "/..", "\t", "%20", ".json", "/index.js"];
const NAMES = [
  "a", "a.js", "b", "b.mjs", "c", "c.cjs", "c.json", "d", "lib", "lib/a.js", "lib/a", "lib/deep/b.js", "lib/deep", "a/a.js", "%61.js",
  "%2561.js", "a%23b.js", "a%3fb.js", "x%20y.js", "x y.js", "é.js", "%C3%A9.js", "%zz.js", "lib%2fa.js", "lib%5ca.js", "lib/../b.js",
  "lib/%2e%2e/b.js", "li\tb/a.js", "index", "none", "none.js", "*.js", "a*b", "axb", "a/x/b", "own.js", "lib\\a.js", "", "..x.js",
  "node_modules/q/a.js", "__proto__", "link.js", "linked/a.js", "linked", "loop.js",
];
const OTHERS = [
  "fs", "node:fs", "fs/promises", "node:none", "test", "node:test", ".", "..", "./", "../", "...", ".a", "@s", "@s/", "@", "/", "//", "//a/b.js", "#",
  "https://x.test/a.js", "data:text/javascript,1", "q?x", "q#y", "%71", "p%2fa.js", "@s%2fp", "p\\a.js", " q", "q ", "q/", "q//a.js", "@s/p/", "..x",
  "file:a.js", "file:///none/a.js", "file://host/a.js", "NODE:fs", "a:b", "p/./a.js", "p/../q/a.js", "q\t", "@s/../q/a.js", "@s/../q",
];

/**
 * One project of random packages.
 */
export class RandomProject {
  #random;
  #folder;
  /** @type {string[]} */
  #importers = [];

  /**
   * @param {number} seed
   * @param {string} folder an empty one, by its path without links
   */
  constructor(seed, folder) {
    this.#random = randomOf(seed);
    this.#folder = folder;
    this.#addPackage("", "own");
    for (const place of ["node_modules", "src/node_modules", "node_modules/p/node_modules", "lib/node_modules"]) {
      for (const name of PACKAGES) {
        if (this.#chance(place === "node_modules" ? 0.8 : 0.25)) {
          this.#addPackage(`${place}/${name}`, name);
        }
      }
    }
    this.#addFile("src/a.js");
    this.#addFile("src/deep/b.mjs");
    this.#addLinks();
  }

  /**
   * @param {number} count
   * @returns {import("./by_node.mjs").Query[]}
   */
  queries(count) {
    const importers = this.#importers.map((path) => realpathSync(path));
    return Array.from({ length: count }, () => [this.#one(importers), this.#name()]);
  }

  #name() {
    const name = this.#one(NAMES) + this.#one(ENDINGS);
    switch (Math.floor(8 * this.#random())) {
      case 0:
        return this.#one(OTHERS);
      case 1:
        return `../${name}`;
      case 2:
        return `./${name}`;
      case 3:
        return this.#one([this.#one(IMPORTS), `#${name}`, `#a/${name}`]);
      case 4:
        return this.#one(PACKAGES);
      case 5:
        return this.#one([`${this.#folder}/${name}`, `file://${this.#folder}/${name}`, `${this.#one(PACKAGES)}/${name}`]);
      default:
        return `${this.#one(PACKAGES)}/${name}`;
    }
  }

  /**
   * @param {string} place
   * @param {string} name
   */
  #addPackage(place, name) {
    for (const folder of FOLDERS) {
      for (const file of FILES) {
        if (this.#chance(folder === "" ? 0.4 : 0.2)) {
          this.#addFile(join(place, folder, file));
        }
      }
    }
    if (this.#chance(0.9)) {
      this.#write(join(place, "package.json"), JSON.stringify(this.#manifest(name)));
    }
    if (this.#chance(0.1)) {
      this.#write(join(place, "lib/package.json"), JSON.stringify(this.#manifest("own")));
    }
  }

  #addLinks() {
    const links = [
      ["src/link.js", "a.js"], ["link.js", "src/deep/b.mjs"], ["loop.js", "loop.js"], ["linked", "lib"], ["node_modules/linked", "../lib"],
      ["src/linked", "../node_modules/p"], ["node_modules/@s/linked", "../q"], ["src/deep/linked", "./../linked/"],
    ];
    for (const [path, target] of links) {
      const link = join(this.#folder, path);
      if (this.#chance(0.8)) {
        mkdirSync(dirname(link), { recursive: true });
        symlinkSync(target, link);
      }
    }
  }

  /** @param {string} path */
  #addFile(path) {
    if (this.#write(path, "") && /\.[cm]?js$/.test(path) && this.#chance(0.2)) {
      this.#importers.push(join(this.#folder, path));
    }
  }

  /**
   * @param {string} path
   * @param {string} content
   * @returns {boolean} whether it could be written
   */
  #write(path, content) {
    const file = join(this.#folder, path);
    try {
      mkdirSync(dirname(file), { recursive: true });
      writeFileSync(file, content);
      return true;
    } catch (/** @type {any} */ error) {
      // A file may be where a folder would be, and the other way round.
      if (!["EISDIR", "ENOTDIR", "EEXIST"].includes(error.code)) {
        throw error;
      }
      return false;
    }
  }

  /** @param {string} name */
  #manifest(name) {
    const has = (/** @type {number} */ part, /** @type {() => unknown} */ value) => {
      return this.#chance(part) ? value() : undefined;
    };
    return {
      name: has(0.9, () => (this.#chance(0.9) ? name : this.#one([...PACKAGES, 5, null]))),
      type: has(0.4, () => this.#one(["module", "commonjs", "other", 5])),
      main: has(0.5, () => (this.#chance(0.95) ? this.#one(MAINS) : this.#one([5, null, ["a.js"], {}]))),
      exports: has(0.5, () => this.#exports()),
      imports: has(0.5, () => (this.#chance(0.95) ? this.#map(IMPORTS) : this.#one([5, null, "#a", ["#a"], true]))),
    };
  }

  /** @returns {unknown} */
  #exports() {
    switch (Math.floor(8 * this.#random())) {
      case 0:
        return this.#one([null, 5, true, "", [], {}, { "": "./a.js" }, { ".": "./a.js", import: "./b.js" }]);
      case 1:
      case 2:
        return this.#target(0);
      default:
        return this.#map(SUBPATHS);
    }
  }

  /**
   * @param {string[]} keys
   * @returns {object} some of the keys, with targets
   */
  #map(keys) {
    const count = 1 + Math.floor(5 * this.#random());
    return asObject(Array.from({ length: count }, () => [this.#one(keys), this.#target(0)]));
  }

  /**
   * @param {number} depth
   * @returns {unknown}
   */
  #target(depth) {
    const kind = depth > 3 ? 0 : this.#random();
    if (kind < 0.6) {
      return this.#one(TARGETS);
    }
    const items = Array.from({ length: Math.floor(4 * this.#random()) }, () => this.#target(depth + 1));
    if (kind < 0.7) {
      return items;
    }
    if (kind < 0.95) {
      return asObject(items.map((each) => [this.#chance(0.97) ? this.#one(CONDITIONS) : this.#one(["0", "7", "__proto__"]), each]));
    }
    return this.#one([null, null, 5, true, false]);
  }

  /** @param {number} part */
  #chance(part) {
    return this.#random() < part;
  }

  /**
   * @template Item
   * @param {Item[]} items
   * @returns {Item}
   */
  #one(items) {
    return items[Math.floor(items.length * this.#random())];
  }
}

/**
 * @param {[string, unknown][]} entries of which one may be `__proto__`
 * @returns {object}
 */
function asObject(entries) {
  const members = [...new Map(entries)].map(([key, value]) => `${JSON.stringify(key)}:${JSON.stringify(value)}`);
  return JSON.parse(`{${members.join(",")}}`);
}
