/** Which files paths name. */

import assert from "node:assert/strict";
import fs, { chmodSync, realpathSync, symlinkSync } from "node:fs";
import { syncBuiltinESMExports } from "node:module";
import { join, relative } from "node:path";
import { Readable } from "node:stream";
import { test } from "node:test";

import { findFiles, readPaths } from "../modinfo-graph/dist/files/find_files.js";
import { all } from "./promises.mjs";
import { folderOf } from "./run_commands.mjs";

/**
 * The files of a folder, by their paths in it.
 * @param {string} folder
 * @param {{ all?: boolean }} [options]
 */
async function filesOf(folder, options = {}) {
  const found = await all(findFiles([folder], options));
  return found.map(({ path }) => relative(folder, path));
}

test("a folder's files are those that are read, sorted by name", async () => {
  const folder = folderOf({
    "b/z.js": "", "b.js": "", "a-b.ts": "", "a.d.ts": "", "B.js": "", "é.js": "", "b/a/c.ts": "",
    "c.json": "", "d.mjs": "", e: "", "f.js/g.js": "", "h/i.txt": "",
  });
  assert.deepEqual(await filesOf(folder), [
    "B.js", "a-b.ts", "a.d.ts", "b/a/c.ts", "b/z.js", "b.js", "d.mjs", "f.js/g.js", "é.js",
  ]);
});

test("node_modules and dot folders are left out, unless all is asked for", async () => {
  const folder = folderOf({
    "node_modules/a.js": "", ".b/c.js": "", "d/node_modules/e/f.js": "", "d/.g.js": "",
    "node_modules.js": "",
  });
  assert.deepEqual(await filesOf(folder), ["d/.g.js", "node_modules.js"]);
  assert.deepEqual(await filesOf(folder, { all: true }), [
    ".b/c.js", "d/.g.js", "d/node_modules/e/f.js", "node_modules/a.js", "node_modules.js",
  ]);
  assert.deepEqual(await filesOf(join(folder, "node_modules")), ["a.js"]);
});

test("links to files are followed, those to folders aren't", async () => {
  const folder = folderOf({ "a/b.js": "", "c.txt": "" });
  symlinkSync("a/b.js", join(folder, "file.js"));
  symlinkSync("none", join(folder, "none.js"));
  symlinkSync("a", join(folder, "folder.js"));
  symlinkSync("..", join(folder, "a/up"));
  assert.deepEqual(await filesOf(folder), ["a/b.js", "file.js", "none.js"]);
  assert.deepEqual(await filesOf(join(folder, "folder.js")), ["b.js"]);
});

test("other paths are taken as they are, in their order", async () => {
  const folder = folderOf({ "a.js": "" });
  const paths = [join(folder, "none.txt"), folder, join(folder, "a.js")];
  const [none, ...found] = await all(findFiles(paths, {}));
  const file = join(folder, "a.js");
  assert.deepEqual([none.path, none.error?.message], [paths[0], "no such file or folder"]);
  assert.deepEqual(found, [{ path: file, real: realpathSync(file) }, { path: file }]);
});

test("a file of a folder has its path without links, a link has none", async () => {
  const folder = folderOf({ "a/b.js": "" });
  symlinkSync("a", join(folder, "link"));
  symlinkSync("b.js", join(folder, "a/c.js"));
  const found = await all(findFiles([join(folder, "link")], {}));
  assert.deepEqual(found.map(({ path, real }) => [path, real]), [
    [join(folder, "link/b.js"), join(realpathSync(folder), "a/b.js")], [join(folder, "link/c.js"), undefined],
  ]);
});

test("a folder that can't be read is reported, and the others are read", async () => {
  const folder = folderOf({ "a/c.js": "", "b.js": "" });
  chmodSync(folder, 0o755);
  chmodSync(join(folder, "a"), 0);
  const found = await asNobody(() => all(findFiles([folder], {})));
  assert.deepEqual(found.map(({ path }) => relative(folder, path)), ["a", "b.js"]);
  assert.match(String(found[0].error), /EACCES/);
});

/**
 * Runs a function as one who isn't root, who may read every folder.
 * @template T
 * @param {() => Promise<T>} run
 */
async function asNobody(run) {
  const { geteuid, seteuid } = process;
  if (geteuid?.() !== 0) {
    return run();
  }
  seteuid?.(65534);
  try {
    return await run();
  } finally {
    seteuid?.(0);
  }
}

test("a folder may have more files than a call takes arguments", async (t) => {
  const names = Array.from({ length: 130_000 }, (_, at) => `${at + 1_000_000}.js`);
  const kind = { isFile: () => true, isDirectory: () => false, isSymbolicLink: () => false };
  t.mock.method(fs, "readdirSync", () => names.map((name) => ({ name, ...kind })));
  syncBuiltinESMExports();
  const found = await filesOf(folderOf());
  t.mock.restoreAll();
  syncBuiltinESMExports();
  assert.deepEqual(found, names);
});

test("paths are read one a line, or ended by zero bytes", async () => {
  const bytes = Buffer.from("a b\n\né\r\nlast");
  for (let cut = 0; cut <= bytes.length; cut++) {
    const input = Readable.from([bytes.subarray(0, cut), bytes.subarray(cut)]);
    assert.deepEqual(await all(readPaths(input, "\n")), ["a b", "é\r", "last"]);
  }
  const zero = Readable.from([Buffer.from("a\nb\0c"), Buffer.from("d\0")]);
  assert.deepEqual(await all(readPaths(zero, "\0")), ["a\nb", "cd"]);
  assert.deepEqual(await all(readPaths(Readable.from([]), "\n")), []);
});
