/** The line of progress on a terminal. */

import assert from "node:assert/strict";
import { spawnSync } from "node:child_process";
import { test } from "node:test";

import { FileReporter } from "../modinfo-graph/dist/cli/reporter.js";
import { MODINFO, folderOf, programOf } from "./run_commands.mjs";

/**
 * What a stream was written.
 * @param {boolean} isTTY
 */
function stream(isTTY) {
  let text = "";
  return { isTTY, write: (/** @type {string} */ more) => (text += more), get text() { return text; } };
}

const WRONG = { path: "a.js", fault: { fault: "Input", message: "wrong" } };

test("on a terminal it prints the files done of all, and the faults", () => {
  const terminal = stream(true);
  const reporter = new FileReporter("modinfo-files", true, terminal);
  [1, 2, 3].forEach(() => reporter.find());
  reporter.report({ path: "b.js" });
  reporter.warn("wrong");
  reporter.report(WRONG);
  reporter.end([]);
  reporter.end([]);
  process.exitCode = 0;
  const lines = "modinfo-files: warning: wrong\nmodinfo-files: a.js: wrong\n";
  assert.equal(
    terminal.text, `\r\x1b[K1 of 3 files, 0 faults\r\x1b[K${lines}\r\x1b[K2 of 3 files, 1 fault\r\x1b[K`,
  );
});

test("elsewhere it prints what stays alone", () => {
  for (const isShown of [true, false]) {
    const file = stream(false);
    const reporter = new FileReporter("modinfo-files", isShown, file);
    reporter.find();
    reporter.report(WRONG);
    reporter.end([]);
    assert.deepEqual([file.text, reporter.status], ["modinfo-files: a.js: wrong\n", 1]);
  }
  const terminal = stream(true);
  new FileReporter("modinfo-files", false, terminal).report({ path: "a.js" });
  assert.equal(terminal.text, "");
  process.exitCode = 0;
});

const hasScript = spawnSync("script", ["--version"]).status === 0;

test("modinfo-files on a terminal", { skip: !hasScript && "script isn't installed" }, () => {
  const folder = folderOf({ "a.js": "", "b.js": "(" });
  const command = `${process.execPath} ${programOf("files")} ${folder}`;
  /** @param {string} line */
  const onTerminal = (line) => String(spawnSync("script", ["-qec", line, "/dev/null"], {
    env: { ...process.env, MODINFO, SHELL: "/bin/sh" },
  }).stdout);
  assert.match(onTerminal(`${command} > /dev/null`), /\r\x1b\[K\d of 2 files, \d faults?/);
  assert.doesNotMatch(onTerminal(command), /of 2 files/);
  assert.doesNotMatch(onTerminal(`${command} 2>&1 | cat`), /of 2 files/);
});
