/** Files and names that a clone of somebody else's repository may have. */

import assert from "node:assert/strict";
import { execFileSync, spawnSync } from "node:child_process";
import { chmodSync, readFileSync, readdirSync, symlinkSync } from "node:fs";
import { join } from "node:path";
import { test } from "node:test";

import { readRegularFile } from "../modinfo-graph/dist/files/regular_files.js";
import { MODINFO, folderOf, linesOf, programOf } from "./run_commands.mjs";

/** More time than any of the commands needs on any machine, so that one that never ends is a failure. */
const TIME = 600_000;

/**
 * @param {string} name
 * @param {string[]} words
 * @param {string} cwd
 * @param {{ modinfo?: string, input?: string }} options
 */
function run(name, words, cwd, { modinfo = MODINFO, input = "" } = {}) {
  const command = [programOf(name), ...words];
  const { stdout, stderr, status, signal } = spawnSync(process.execPath, command, {
    cwd, input, env: { ...process.env, MODINFO: modinfo }, timeout: TIME,
  });
  return { stdout: String(stdout), stderr: String(stderr), status, ...(signal && { signal }) };
}

/** A folder with a FIFO, and links to files that never end. */
function endless() {
  const folder = folderOf({ "a/good.js": "", "b.js": "" });
  execFileSync("mkfifo", [join(folder, "a/fifo.js")]);
  symlinkSync("fifo.js", join(folder, "a/to_fifo.js"));
  symlinkSync("/dev/zero", join(folder, "a/zero.js"));
  return folder;
}

/** @param {string} stdout */
const namesOf = (stdout) => linesOf(stdout).map(({ specifier }) => specifier.split("/").at(-1));
const LEFT = "warning: a link out of the given paths is not followed (--follow follows it)";

test("of a folder only regular files are read", () => {
  const folder = endless();
  for (const words of [["a"], ["--follow", "a"]]) {
    const { stdout, status } = run("files", words, folder);
    assert.deepEqual([namesOf(stdout), status], [["good.js"], 0]);
  }
  assert.deepEqual(run("report", ["--dot", "out.dot", "a"], folder).signal, undefined);
  assert.match(readFileSync(join(folder, "out.dot"), "utf8"), /good\.js/);
});

test("a named file that isn't regular is an error", () => {
  const folder = endless();
  const files = ["a/fifo.js", "a/to_fifo.js", "a/zero.js"];
  const errors = files.map((file) => `${file}: no regular file\n`);
  const { stdout, stderr, status } = run("files", [...files, "b.js"], folder);
  assert.deepEqual([stderr, status], [errors.map((each) => `modinfo-files: ${each}`).join(""), 1]);
  assert.deepEqual(linesOf(stdout).map(({ fault }) => fault), ["Input", "Input", "Input", undefined]);
});

test("a file without an end is not waited for, though the system calls it regular", () => {
  const folder = folderOf();
  symlinkSync("/proc/kmsg", join(folder, "log.js"));
  const { stderr, status } = run("files", ["log.js"], folder);
  assert.deepEqual([stderr, status], ["modinfo-files: log.js: a file of the system\n", 1]);
});

test("what configures the resolution is read only where it is a regular file", () => {
  const text = `import "./b.js"; import "x"; require("./b"); import "#c"; import "y/z";`;
  const files = { "src/a.js": text, "src/b.js": "", "node_modules/y/z.js": "" };
  const endlessLinks = [
    "package.json", "src/package.json", "tsconfig.json", "src/jsconfig.json", "node_modules/y/package.json",
    "node_modules/x/package.json",
  ];
  for (const link of endlessLinks) {
    const folder = folderOf({ ...files, "node_modules/x/index.js": "" });
    symlinkSync("/dev/zero", join(folder, link));
    const { stdout, status, signal } = run("files", ["--resolve", "src"], folder);
    assert.deepEqual([status, signal], [0, undefined], link);
    assert.deepEqual(namesOf(stdout), ["a.js", "b.js"], link);
  }
  const folder = folderOf({ ...files, "tsconfig.json": `{ "extends": "./base.json" }` });
  execFileSync("mkfifo", [join(folder, "base.json")]);
  const { stdout, stderr, status } = run("files", ["--resolve", "src"], folder);
  assert.deepEqual([namesOf(stdout), status], [["a.js", "b.js"], 0]);
  assert.match(stderr, /^modinfo-files: warning: .*base\.json: ignored: not a regular file\n$/);
});

test("a link out of the given paths is followed only with --follow", () => {
  const folder = folderOf({
    "a/b/in.js": `import "in";`, "c/out.js": `import "out";`, "c/named.js": `import "named";`, "secret": "root:x:0:0\n",
  });
  symlinkSync("b/in.js", join(folder, "a/to_in.js"));
  symlinkSync("../c/out.js", join(folder, "a/to_out.js"));
  symlinkSync("../secret", join(folder, "a/to_secret.js"));
  symlinkSync("a", join(folder, "link"));
  /** @param {string} stdout */
  const kindsOf = (stdout) => linesOf(stdout).map(({ info, fault }) => info?.dependencies[0].specifier ?? fault);
  /** @param {string} file */
  const left = (file) => `modinfo-files: ${file}: ${LEFT}\n`;
  const without = run("files", ["a"], folder);
  assert.deepEqual(without, { stdout: without.stdout, stderr: left("a/to_out.js") + left("a/to_secret.js"), status: 0 });
  assert.deepEqual(kindsOf(without.stdout), ["in", "in"]);
  // What is given decides, and not what the paths are called.
  assert.equal(run("files", ["link"], folder).stderr, left("link/to_out.js") + left("link/to_secret.js"));
  assert.equal(run("files", ["a", "c"], folder).stderr, left("a/to_secret.js"));
  assert.deepEqual(kindsOf(run("files", ["a/to_out.js"], folder).stdout), ["out"]);
  const follow = run("files", ["--follow", "a"], folder);
  assert.deepEqual(kindsOf(follow.stdout), ["in", "in", "out", "Syntax"]);
  assert.match(follow.stderr, /^modinfo-files: a\/to_secret\.js:1:\d+: .*\n {2}\| root:x:0:0\n/);
});

test("what a link out of the folder leads to is not in the report", () => {
  const folder = folderOf({ "a/b.js": "", secret: "the secret" });
  symlinkSync("../secret", join(folder, "a/c.js"));
  const { stderr } = run("report", ["a"], folder);
  assert.ok(stderr.startsWith(`modinfo-report: a/c.js: ${LEFT}\n`), stderr);
  assert.ok(!readFileSync(join(folder, "report.html"), "utf8").includes("the secret"));
});

test("a file that a link out of the paths leads to is read where it is named itself", () => {
  const folder = folderOf({ "a/b.js": "", "c.js": `import "d";` });
  symlinkSync("../c.js", join(folder, "a/c.js"));
  run("report", ["--dot", "out.dot", "-"], folder, { input: "a\nc.js\n" });
  assert.match(readFileSync(join(folder, "out.dot"), "utf8"), /"c\.js"/);
});

test("the content of a file without a size is read to its end", () => {
  assert.equal(String(readRegularFile("/proc/version")), readFileSync("/proc/version", "utf8"));
  const { length } = readFileSync("/proc/version");
  assert.throws(() => readRegularFile("/proc/version", length - 1), { name: "FileFault", fault: "Input" });
  const folder = folderOf({ "long.js": "a;".repeat(200_000), "empty.js": "" });
  assert.equal(String(readRegularFile(join(folder, "long.js"))), "a;".repeat(200_000));
  assert.equal(readRegularFile(join(folder, "empty.js")).length, 0);
});

test("names are shown with their control characters escaped", () => {
  const evil = "a\x1b[31m\nmodinfo-files: \u202e\x9b.js";
  const shown = "a\\x1b[31m\\nmodinfo-files: \\u{202e}\\x9b.js";
  const folder = folderOf({ [evil]: "(", "tsconfig.json": `{"compilerOptions":{"\\u001b[32m":1}}`, "b.js": `import "./b.js";` });
  /** @param {string} stderr */
  const isClean = (stderr) => assert.doesNotMatch(stderr, /[^\P{Cc}\n]|\u202e/u);
  /** @type {[name: string, words: string[], label?: string][]} */
  const runs = [
    ["files", ["."]], ["files", [evil]], ["files", [`none${evil}`], `none${shown}`],
    ["report", ["."]], ["report", ["-o", `none/${evil}`, "."], `none/${shown}`],
  ];
  for (const [name, words, label = shown] of runs) {
    const { stderr } = run(name, words, folder);
    isClean(stderr);
    assert.ok(stderr.includes(`: ${label}:`), stderr);
  }
  for (const words of [[`--${evil}`], ["--reach", "./", evil]]) {
    isClean(run("files", words, folder).stderr);
  }
  const { stderr } = run("files", ["--resolve", "--types", "b.js"], folder);
  isClean(stderr);
  assert.match(stderr, /^modinfo-files: warning: .*tsconfig\.json: .*\\x1b\[32m/);
});

test("the excerpt of a syntax error can't be taken for a line of output, and turns no direction", () => {
  const forged = "modinfo-files: src/a.js: nothing is wrong";
  const folder = folderOf({ "a.js": `let a = 1;\n${forged} \u202e ^\n` });
  const { stderr, status } = run("files", ["a.js"], folder);
  assert.equal(status, 1);
  const [message, ...excerpt] = stderr.split("\n").slice(0, -1);
  assert.match(message, /^modinfo-files: a\.js:2:\d+: /);
  assert.ok(excerpt.length === 2 && excerpt.every((line) => line.startsWith("  | ")), stderr);
  assert.doesNotMatch(stderr, /[^\P{Cc}\n]|\u202e/u);
  assert.ok(stderr.includes(`  | ${forged} \\u{202e}`), stderr);
});

test("a report overwrites nothing but an earlier one", () => {
  const files = { "d/a.js": "1;", "e.js": "2;", "package.json": "{}", "tsconfig.json": "{}", "index.html": "<!DOCTYPE html>" };
  const folder = folderOf({ ...files, "d/empty.js": "" });
  symlinkSync("d", join(folder, "link"));
  for (const [words, message] of /** @type {[string[], RegExp][]} */ ([
    [["-o", "d/a.js", "d"], /a\.js isn't a page of modinfo-report and would be overwritten\n$/],
    [["-o", "link/a.js", "d"], /isn't a page/], [["--dot", "./d/a.js", "link"], /isn't a graph of modinfo-report/],
    [["--entry", "e.js", "-o", "e.js", "d"], /isn't a page/], [["-o", "package.json", "d"], /isn't a page/],
    [["-o", "tsconfig.json", "d"], /isn't a page/], [["--dot", "package.json", "d"], /isn't a graph/],
    [["-o", "index.html", "d"], /isn't a page/],
    [["-o", "d/empty.js", "d"], /empty\.js is a file of PATH, which the output would overwrite\n$/],
  ])) {
    const { stderr, status } = run("report", words, folder);
    assert.match(stderr, message);
    assert.equal(status, 2);
  }
  for (const [name, text] of Object.entries(files)) {
    assert.equal(readFileSync(join(folder, name), "utf8"), text);
  }
  const again = [1, 2].map(() => run("report", ["--dot", "graph.dot", "d"], folder).status);
  assert.deepEqual(again, [0, 0]);
});

test("a report writes its two outputs to two files", () => {
  const folder = folderOf({ "d/a.js": "" });
  symlinkSync("d", join(folder, "link"));
  for (const [output, dot] of [["r", "r"], ["r", "./r"], ["d/r", "link/r"], ["report.html"]]) {
    const words = dot ? ["-o", output, "--dot", dot] : ["--dot", output];
    const { stderr, status } = run("report", [...words, "d"], folder);
    assert.deepEqual([stderr, status], [`modinfo-report: --output and --dot name the same file: ${dot ?? output}\n`, 2]);
  }
  assert.deepEqual(readdirSync(folder).sort(), ["d", "link"]);
});

test("what is written is there as a whole or not at all", () => {
  const old = `<!DOCTYPE html>\n<html lang="en">\n<title>Dependencies of d</title>`;
  const folder = folderOf({ "d/a.js": "", "kept.html": old, "target.html": old });
  chmodSync(join(folder, "kept.html"), 0o640);
  symlinkSync("target.html", join(folder, "page.html"));
  run("report", ["-o", "page.html", "d"], folder);
  assert.match(readFileSync(join(folder, "target.html"), "utf8"), /<script type="module">/);
  // A file is full after 1 KiB, before the page ends.
  const line = `ulimit -f 1; exec "${process.execPath}" "${programOf("report")}" --jobs 1 -o kept.html d`;
  const { stderr, status } = spawnSync("bash", ["-c", line], {
    cwd: folder, env: { ...process.env, MODINFO }, timeout: TIME,
  });
  assert.match(String(stderr), /kept\.html: EFBIG/);
  assert.equal(status, 1);
  assert.equal(readFileSync(join(folder, "kept.html"), "utf8"), old);
  assert.deepEqual(readdirSync(folder).sort(), ["d", "kept.html", "page.html", "target.html"]);
});
