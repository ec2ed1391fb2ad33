/** Folders and calls that are made to hang the package, or to mislead who reads its output. */

import assert from "node:assert/strict";
import { spawnSync } from "node:child_process";
import { readFileSync } from "node:fs";
import { join } from "node:path";
import { test } from "node:test";

import { Resolver } from "../modinfo-graph/dist/graph/resolver.js";
import { moduleInfo } from "../modinfo/dist/index.js";
import { onAbort } from "../modinfo-graph/dist/runtime/call_options.js";
import { folderOf, run } from "./run_commands.mjs";

/**
 * Configurations of which each extends the next one twice, and the last one another.
 * @param {string} last
 */
function extending(last) {
  const files = Array.from({ length: 24 }, (_, at) => {
    const next = at === 23 ? last : `./c${at + 1}.json`;
    return [at === 0 ? "tsconfig.json" : `c${at}.json`, JSON.stringify({ extends: [next, next] })];
  });
  return folderOf({
    ...Object.fromEntries(files), "end.json": `{"compilerOptions":{"paths":{"x":["./x.ts"]}}}`, "a.ts": "", "x.ts": "",
  });
}

test("a configuration that others extend many times is merged once", () => {
  const folder = extending("./end.json");
  const { file } = /** @type {any} */ (new Resolver().resolve("x", join(folder, "a.ts")));
  assert.match(file, /\/x\.ts$/);
  assert.equal(new Resolver().resolve("x", join(extending("./c1.json"), "a.ts")).class, "package");
});

test("a folder's name turns no direction in a report", () => {
  const folder = folderOf({ "a\u202eb/a.js": "" });
  run("report", ["."], { cwd: join(folder, "a\u202eb") });
  const page = readFileSync(join(folder, "a\u202eb", "report.html"), "utf8");
  assert.match(page, /<title>Dependencies of a\\u\{202e\}b</);
  assert.ok(!page.includes("\u202e"));
});

test("an output that is a FIFO without a reader is an error", () => {
  const folder = folderOf({ "a.js": "" });
  spawnSync("mkfifo", [join(folder, "page")]);
  const { stderr, status } = run("report", ["-o", "page", "."], { cwd: folder });
  assert.deepEqual([stderr, status], ["modinfo-report: page: ENXIO: no such device or address\n", 1]);
});

test("a signal of many calls has one listener", () => {
  const controller = new AbortController();
  let [listeners, called] = [0, 0];
  const { signal } = controller;
  const add = signal.addEventListener.bind(signal);
  signal.addEventListener = (/** @type {[any, any]} */ ...words) => {
    listeners++;
    add(...words);
  };
  const backs = Array.from({ length: 20 }, () => onAbort(signal, () => called++));
  backs.slice(0, 5).forEach((takeBack) => takeBack());
  controller.abort();
  assert.deepEqual([listeners, called], [1, 15]);
});

test("options in the place of the media type are a TypeError", async () => {
  const { signal } = new AbortController();
  await assert.rejects(moduleInfo("", "file:///a.js", /** @type {any} */ ({ signal })), TypeError);
});
