/** What resolution opens: regular files, and of these package.json and configurations alone. */

import assert from "node:assert/strict";
import { execFileSync } from "node:child_process";
import fs, { mkdirSync, renameSync, symlinkSync, writeFileSync } from "node:fs";
import { join, relative } from "node:path";
import { test } from "node:test";
import { pathToFileURL } from "node:url";

import { RegularFiles } from "../modinfo-graph/dist/files/regular_files.js";
import { Resolver } from "../modinfo-graph/dist/graph/resolver.js";
import { folderOf } from "./run_commands.mjs";

/** A file system that keeps what it opens. */
function countingSystem() {
  /** @type {string[]} */
  const opened = [];
  /** @type {typeof fs.openSync} */
  const openSync = (path, flags, mode) => {
    const status = fs.lstatSync(path);
    opened.push(status.isFile() ? String(path) : `${path}, which is no file`);
    return fs.openSync(path, flags, mode);
  };
  return { opened, system: { ...fs, openSync } };
}

const FILES = {
  "package.json": `{"name":"own","imports":{"#a":"./a.js"},"exports":{"./a":"./a.js","./deep/*":"./deep/*"}}`,
  "a.js": "", "deep/x.js": "", "deep/y.js": "", "other/z.js": "", "other/package.json": "{}",
  "node_modules/p/package.json": `{"exports":{"./x":"./x.js"}}`, "node_modules/p/x.js": "",
};

/**
 * The layouts in which a package.json is no file: where it is, and what is named.
 * @type {[what: string, place: string, name: string, prepare?: (folder: string) => void][]}
 */
const LAYOUTS = [
  ["a name of imports", "package.json", "#a"],
  ["the package's own name, by its exports", "package.json", "own/a"],
  ["a name that is encoded", "deep/package.json", "./%64eep/x.js"],
  ["a URL that is encoded", "deep/package.json", "file://FOLDER/%64eep/x.js"],
  ["a tab in a name", "deep/package.json", "./de\tep/x.js"],
  ["two encoded dots", "other/package.json", "./deep/%2e%2e/other/z.js"],
  ["a link to a file", "other/package.json", "./link.js", (folder) => {
    symlinkSync("other/z.js", join(folder, "link.js"));
  }],
  ["a link to a folder in one that has it", "other/package.json", "./linked/x.js", (folder) => {
    mkdirSync(join(folder, "other/inner"));
    writeFileSync(join(folder, "other/inner/x.js"), "");
    symlinkSync("other/inner", join(folder, "linked"));
  }],
  ["a package", "node_modules/p/package.json", "p/x"],
  ["a folder as a module", "other/package.json", "./other"],
  ["a package that isn't there", "node_modules/package.json", "none"],
];

/**
 * What is no file, and how a path becomes it.
 * @type {Record<string, (path: string) => void>}
 */
const KINDS = {
  "/dev/zero": (path) => symlinkSync("/dev/zero", path),
  "/dev/null": (path) => symlinkSync("/dev/null", path),
  "a FIFO": (path) => execFileSync("mkfifo", [path]),
  "a link to a FIFO": (path) => {
    execFileSync("mkfifo", [`${path}.fifo`]);
    symlinkSync(`${path}.fifo`, path);
  },
  "a folder": (path) => mkdirSync(path),
  "a link to itself": (path) => symlinkSync("package.json", path),
};

for (const [what, place, name, prepare] of LAYOUTS) {
  test(`no package.json is opened that is no file: ${what}`, () => {
    for (const [kind, make] of Object.entries(KINDS)) {
      const folder = folderOf(FILES);
      fs.rmSync(join(folder, place), { force: true });
      make(join(folder, place));
      prepare?.(folder);
      const { opened, system } = countingSystem();
      const resolver = new Resolver({ root: folder, system });
      for (const nameKind of /** @type {const} */ (["import", "require", "dynamic"])) {
        for (const from of ["a.js", "deep/y.js", "other/z.js", "linked/x.js"]) {
          const { class: found } = resolver.resolve(name.replace("FOLDER", folder), join(folder, from), { kind: nameKind });
          assert.ok(["file", "package", "missing"].includes(found), `${kind}: ${found}`);
        }
      }
      const names = opened.map((path) => relative(folder, path));
      assert.deepEqual(names.filter((path) => !path.endsWith("package.json")), [], kind);
      assert.ok(!names.includes(place), kind);
      const isNoticed = kind.startsWith("/dev") || kind.includes("FIFO");
      const notices = resolver.takeNotices();
      assert.ok(!isNoticed || place === "node_modules/package.json" || notices.length === 1, notices.join("\n"));
    }
  });
}

test("a file is opened once, and no other one than package.json and configurations", () => {
  const folder = folderOf({
    ...FILES, "tsconfig.json": `{"extends":"./base.json","compilerOptions":{"paths":{"@/*":["./deep/*"]}}}`, "base.json": "{}",
    "b.ts": "", "deno.json": "{}",
  });
  const { opened, system } = countingSystem();
  const resolver = new Resolver({ root: folder, system });
  for (const name of ["./a.js", "./deep/x.js", "p/x", "@/x.js", "#a", "none", "./none"]) {
    resolver.resolve(name, join(folder, "b.ts"));
    resolver.resolve(name, join(folder, "deep/y.js"), { kind: "require" });
  }
  assert.deepEqual(opened.map((path) => relative(folder, path)).sort(), [
    "base.json", "deno.json", "node_modules/p/package.json", "package.json", "tsconfig.json",
  ]);
});

test("a tsconfig.json in few bytes has no folder walked", () => {
  const folder = folderOf({
    "tsconfig.json": `{"files":[],"references":[{"path":"./app.json"}]}`,
    "app.json": `{"include":["/usr/**/*","/proc/**/*","../../**/*","**/*"],"compilerOptions":{"paths":{"@/*":["./src/*"]}}}`,
    "src/a.ts": "", "src/b.ts": "",
  });
  /** @type {string[]} */
  const read = [];
  const readdirSync = /** @type {any} */ ((/** @type {any[]} */ ...words) => {
    read.push(relative(folder, words[0]));
    return /** @type {any} */ (fs.readdirSync)(...words);
  });
  const resolver = new Resolver({ root: folder, system: { ...fs, readdirSync } });
  const { class: found } = resolver.resolve("@/b", join(folder, "src/a.ts"));
  // Only the folders of the importer are looked into, for pages with an import map.
  assert.deepEqual([found, read.sort()], ["file", ["", "src"]]);
});

test("where a link leads is known before anything is opened", () => {
  const outer = folderOf({ "secret/package.json": `{"name":"s","main":"m.js"}`, "secret/m.js": "", "in/a.js": "", "in/package.json": "{}" });
  const folder = join(outer, "in");
  mkdirSync(join(folder, "node_modules"));
  symlinkSync("../../secret", join(folder, "node_modules/s"));
  symlinkSync("../secret/m.js", join(folder, "m.js"));
  symlinkSync("../secret", join(folder, "linked"));
  symlinkSync("a.js", join(folder, "inside.js"));
  const { opened, system } = countingSystem();
  const resolver = new Resolver({ root: folder, system });
  const target = (/** @type {string} */ path) => ({ class: "outside", target: pathToFileURL(join(outer, path)).href });
  const resolved = (/** @type {string} */ name) => resolver.resolve(name, join(folder, "a.js"));
  assert.deepEqual(resolved("s"), target("secret"));
  assert.deepEqual(resolved("./m.js"), target("secret/m.js"));
  assert.deepEqual(resolved("./linked/m.js"), target("secret/m.js"));
  assert.deepEqual(resolved("../secret/m.js"), target("secret/m.js"));
  assert.equal(resolved("./inside.js").class, "file");
  assert.deepEqual(opened.filter((path) => path.includes("secret")), []);
});

test("the real paths of links are the system's", () => {
  const folder = folderOf({ "a/b/c.js": "", "d/e.js": "" });
  const links = {
    "to_c": "a/b/c.js", "a/up": "../d", "a/b/over": "../up/../a/b/c.js", "chain1": "chain2", "chain2": "./chain3", "chain3": "a//b/./c.js",
    "loop1": "loop2", "loop2": "loop1", "self": "self/x", "absolute": join(folder, "a/up/e.js"), "none": "a/none", "file_as_folder": "a/b/c.js/x",
    "slash": "a/b/c.js/", "folder": "a/up/",
  };
  for (const [path, target] of Object.entries(links)) {
    symlinkSync(target, join(folder, path));
  }
  for (let at = 0; at < 50; at++) {
    symlinkSync(at === 0 ? "d/e.js" : `n${at - 1}`, join(folder, `n${at}`));
  }
  const files = new RegularFiles();
  const paths = [...Object.keys(links), "a/up/e.js", "folder/e.js", "n38", "n39", "n40", "n49", "a/b/over/x", "d", "."];
  for (const path of paths) {
    const own = files.at(join(folder, path));
    let real = "";
    try {
      real = fs.realpathSync.native(join(folder, path));
    } catch {
      // It leads to nothing.
    }
    assert.equal(own.path, real, path);
    assert.equal(own.kind !== "none", real !== "", path);
  }
});

test("a long chain of links leads to nothing, and its end to what it leads to", () => {
  const folder = folderOf({ "a.js": "" });
  for (let at = 0; at < 5000; at++) {
    symlinkSync(at === 0 ? "a.js" : `n${at - 1}`, join(folder, `n${at}`));
  }
  const files = new RegularFiles();
  const kindOf = (/** @type {number} */ at) => files.at(join(folder, `n${at}`)).kind;
  assert.deepEqual([4999, 60, 41, 40, 39, 20, 0, 40, 4998].map(kindOf), [
    "none", "none", "none", "none", "file", "file", "file", "none", "none",
  ]);
});

test("a file that is replaced by a link is not followed", () => {
  const folder = folderOf({ "package.json": `{"name":"a"}`, "other.json": `{"name":"b"}` });
  const path = join(folder, "package.json");
  const files = new RegularFiles();
  files.addProject(folder);
  assert.equal(files.at(path).kind, "file");
  renameSync(path, join(folder, "old.json"));
  symlinkSync("other.json", path);
  assert.throws(() => files.read(path), { code: "ELOOP" });
  fs.rmSync(path);
  execFileSync("mkfifo", [path]);
  assert.throws(() => files.read(path), { name: "FileFault", message: /a FIFO, not a regular file/ });
});

test("a package.json of more than 4 MiB is passed over", () => {
  const folder = folderOf({ "package.json": `{"imports":{"#a":"./a.js"}}${" ".repeat(4 * 2 ** 20)}`, "a.js": "" });
  const resolver = new Resolver({ root: folder });
  assert.deepEqual(resolver.resolve("#a", join(folder, "a.js")), { class: "missing" });
  assert.match(resolver.takeNotices().join(), /package\.json: ignored: the file has more than 4194304 bytes/);
});
