/** From files and folders to answers, as a user would. */

import assert from "node:assert/strict";
import { spawn } from "node:child_process";
import { once } from "node:events";
import { chmodSync, truncateSync, writeFileSync } from "node:fs";
import { join } from "node:path";
import { createInterface } from "node:readline";
import { test } from "node:test";
import { pathToFileURL } from "node:url";

import { readJobs } from "../modinfo-graph/dist/cli/command_line.js";
import { MODINFO, MODULE, folderOf, linesOf, programOf, run, shell, urlOf } from "./run_commands.mjs";
import { fault, readSchema } from "./schema.mjs";

const NAME = "modinfo-files";

/**
 * @typedef {import("./any_kind.mjs").AnyDependency} AnyDependency
 * @typedef {import("../modinfo/dist/index.js").JsDocImportInfo} JsDocImportInfo
 */

/** A project: `src/main.ts` reaches two modules, and one only through JSDoc. */
const PROJECT = {
  "src/main.ts": `import { b } from "./b.ts";\nimport("./c.js");\nimport(name);\n`,
  "src/b.ts": `import "../lib/d";\nexport const b = 1;\n`,
  "src/c.js": `/** @type {import("./only_types.ts").T} */\nexport const c = 1;\n`,
  "src/only_types.ts": "export type T = 1;\n",
  "src/lonely.js": `require("./c.js");\n`,
  "src/wrong.ts": "let a = 1;\nlet b = ;\n",
  "src/node_modules/e/index.js": "",
  "lib/d.js": `require("./f");\n`,
  "lib/d.d.ts": "export {};\n",
  "lib/f.js": "",
};

function project() {
  return folderOf(PROJECT);
}

/**
 * @param {{ info: import("./any_kind.mjs").AnyInfo }} line
 * @returns {AnyDependency[] | undefined}
 */
function dependenciesOf({ info }) {
  return info.dependencies;
}

/**
 * The lines of modinfo-files in a folder; its error output and status have to be these.
 * @param {string[]} words
 * @param {string} cwd
 * @param {import("./run_commands.mjs").RunOptions & { stderr?: string, status?: number }} options
 */
function answers(words, cwd, { stderr = "", status = 0, ...options } = {}) {
  const result = run("files", words, { cwd, ...options });
  assert.deepEqual([result.stderr, result.status], [stderr, status]);
  return linesOf(result.stdout);
}

/** @param {string} path */
const wrongLine = (path) => `${NAME}: ${path}:2:9: expected an expression\n  | let b = ;\n  |         ^\n`;

test("each file's answer, in the order of the files, a fault among them", () => {
  const folder = project();
  const found = answers(["src"], folder, { stderr: wrongLine("src/wrong.ts"), status: 1 });
  const names = ["b.ts", "c.js", "lonely.js", "main.ts", "only_types.ts", "wrong.ts"];
  assert.deepEqual(
    found.map(({ specifier }) => specifier),
    names.map((name) => urlOf(folder, `src/${name}`)),
  );
  assert.deepEqual(found[5], {
    specifier: urlOf(folder, "src/wrong.ts"),
    fault: "Syntax", message: "expected an expression", line: 2, column: 9,
  });
  assert.deepEqual(dependenciesOf(found[3])?.map((each) => each.specifier ?? each.argument), [
    "./b.ts", "./c.js", undefined,
  ]);
  const schema = readSchema("module-info");
  assert.deepEqual(found.slice(0, 5).map(({ info }) => fault(info, schema)), Array(5).fill(undefined));
});

test("the output is the same for any number of processes", () => {
  const files = Array.from({ length: 300 }, (_, at) => [
    `${String(at).padStart(3, "0")}.js`, `import "./${at}.js";\n${"a;\n".repeat((at * 37) % 500)}`,
  ]);
  const folder = folderOf(Object.fromEntries(files));
  const outputs = ["1", "2", "5"].map((jobs) => run("files", ["--jobs", jobs, folder]).stdout);
  const specifiers = linesOf(outputs[0]).map(({ info }) => info.dependencies[0].specifier);
  assert.deepEqual(specifiers, files.map((_, at) => `./${at}.js`));
  assert.deepEqual(outputs, Array(3).fill(outputs[0]));
});

test("where there is nothing to read, that is reported", () => {
  const folder = folderOf({ "empty/.keep": "", "text/a.txt": "" });
  for (const words of [["empty"], ["--cycles", "text"]]) {
    const { stdout, stderr, status } = run("files", words, { cwd: folder });
    assert.deepEqual([stdout, status], ["", 2]);
    assert.match(stderr, new RegExp(`^${NAME}: ${words.at(-1)}: no file to read: .*\\.tsx\n$`));
  }
  const [none] = answers(["none"], folder, { stderr: `${NAME}: none: no such file or folder\n`, status: 1 });
  assert.deepEqual([none.fault, none.message], ["Input", "no such file or folder"]);
});

test("there are at most as many processes as processors", () => {
  assert.equal(readJobs("9999"), readJobs(undefined));
  assert.equal(readJobs("1"), 1);
});

test("what has no answer is a fault, and the others go on", () => {
  const folder = folderOf({
    "bytes.js": Buffer.of(0xff), "text.txt": "", "good.js": "", "large.js": "",
  });
  truncateSync(join(folder, "large.js"), 2 ** 31);
  const files = ["none.js", "bytes.js", "text.txt", "large.js", "good.js"];
  /** @type {Record<string, [fault: string, message: string]>} */
  const messages = {
    "none.js": ["Input", "no such file or folder"],
    "bytes.js": ["Input", "the file isn't UTF-8"],
    "text.txt": ["MediaType", "files with this ending are not read"],
    "large.js": ["Input", "larger than 64 MiB"],
  };
  const reported = Object.entries(messages).map(([file, [, text]]) => `${NAME}: ${file}: ${text}\n`);
  const found = answers(files, folder, { stderr: reported.join(""), status: 1 });
  const expected = files.map((file) => {
    const specifier = urlOf(folder, file);
    if (!(file in messages)) {
      return { specifier, info: { script: true } };
    }
    const [name, message] = messages[file];
    return { specifier, fault: name, message };
  });
  assert.deepEqual(found, expected);
});

test("paths come from the standard input", () => {
  const folder = folderOf({ "a.js": "", "b c.js": "", "d\ne.js": "", "f.js": "" });
  /**
   * @param {string[]} words
   * @param {string} input
   */
  const specifiers = (words, input) => answers(words, folder, { input })
    .map(({ specifier }) => decodeURIComponent(specifier.slice(pathToFileURL(folder).href.length + 1)));
  assert.deepEqual(specifiers(["-"], "a.js\nb c.js\n"), ["a.js", "b c.js"]);
  assert.deepEqual(specifiers(["f.js", "-", "a.js"], "b c.js"), ["f.js", "b c.js", "a.js"]);
  assert.deepEqual(specifiers(["-0", "-"], "d\ne.js\0a.js\0"), ["d\ne.js", "a.js"]);
  assert.deepEqual(specifiers(["-"], ""), []);
  assert.deepEqual(specifiers(["--", "a.js"], ""), ["a.js"]);
});

test("a path with a zero byte names no file, and the answers of others are theirs", () => {
  const names = ["a.js", "b.js", "c.js", "d.js"];
  const folder = folderOf(Object.fromEntries(names.map((name) => [name, `import "${name}";`])));
  const stderr = `${NAME}: a.js\\x00b.js: no such file or folder\n`;
  const [wrong, ...found] = answers(["--jobs", "1", "-"], folder, { input: "a.js\0b.js\nc.js\nd.js\n", stderr, status: 1 });
  assert.deepEqual([wrong.fault, found.map(({ info }) => info.dependencies[0].specifier)], ["Input", ["c.js", "d.js"]]);
});

test("a partner that waits for each answer gets it", async (t) => {
  const folder = folderOf({ "a.js": "", "b.js": "" });
  const env = { ...process.env, MODINFO };
  const child = spawn(process.execPath, [programOf("files"), "-"], { cwd: folder, env });
  t.after(() => child.kill());
  const lines = createInterface({ input: child.stdout })[Symbol.asyncIterator]();
  for (const name of ["a.js", "b.js", "a.js"]) {
    child.stdin.write(`${name}\n`);
    assert.equal(JSON.parse((await lines.next()).value).specifier, urlOf(folder, name));
  }
  child.stdin.end();
  assert.deepEqual(await once(child, "close"), [0, null]);
});

test("--all goes into node_modules", () => {
  const folder = project();
  const options = { stderr: wrongLine("src/wrong.ts"), status: 1 };
  const found = answers(["--all", "src"], folder, options).map(({ specifier }) => specifier);
  assert.ok(found.includes(urlOf(folder, "src/node_modules/e/index.js")));
  assert.equal(found.length, 7);
});

test("--resolve adds what names resolve to, wherever a module is named", () => {
  const folder = project();
  const found = answers(["--resolve", "src/main.ts", "src/b.ts", "src/only_types.ts"], folder);
  const resolved = found.map((each) => dependenciesOf(each)?.map(({ resolved: to }) => to));
  /**
   * @param {string} path
   * @param {string} [by]
   */
  const file = (path, by = "node") => ({ class: "file", file: urlOf(folder, path), by });
  assert.deepEqual(resolved, [
    [file("src/b.ts", "bundler"), file("src/c.js"), { class: "unknown" }],
    [{ ...file("lib/d.js"), types: urlOf(folder, "lib/d.d.ts") }],
    undefined,
  ]);
  const inCommonJs = folderOf({ "a.cts": `import b = require("./b");`, "b/index.ts": "" });
  const [{ info }] = answers(["--resolve", "a.cts"], inCommonJs);
  const index = urlOf(inCommonJs, "b/index.ts");
  assert.deepEqual(info.dependencies[0].resolved, { class: "file", file: index, by: "bundler" });
});

test("what is wrong with a configuration is reported once", () => {
  const folder = folderOf({ "tsconfig.json": "{", "a.ts": "", "b.ts": "", "c.ts": "" });
  const { stderr, status } = run("files", ["--resolve", "--jobs", "3", "."], { cwd: folder });
  const warning = `${NAME}: warning: ${folder}/tsconfig.json: ignored: `;
  assert.ok(stderr.startsWith(warning) && stderr.split("\n").length === 2, stderr);
  assert.equal(status, 0);
});

test("other words are answered by the usage", () => {
  const folder = folderOf({ "a.js": "" });
  for (const words of [
    [], ["--none", "a.js"], ["--unreached", "a.js"], ["--jobs", "0", "a.js"], ["--jobs", "a", "a.js"],
    ["--entry", "."], ["--entry", "a.js", "--unreached"], ["--why", "a.js", "a.js"], ["--jobs"], ["-x", "a.js"],
    ["--cycles", "--dot", "a.js"], ["--known", "--entry", "a.js", "--why", "a.js"], ["--dot", "--json", "a.js"], ["--resolve", "--cycles", "a.js"],
  ]) {
    const { stdout, stderr, status } = run("files", words, { cwd: folder });
    assert.deepEqual([stdout, status], ["", 2], words.join(" "));
    assert.match(stderr, new RegExp(`^${NAME}: .+`));
  }
});

test("--help and --version", () => {
  const help = run("files", ["--help"]);
  assert.deepEqual([help.stderr, help.status], ["", 0]);
  assert.match(help.stdout, /^usage: modinfo-files /);
  assert.deepEqual(run("files", ["-h"]), help);
  const version = /^modinfo-files \d+\.\d+\.\d+ \((.*)\)\n$/;
  const { stdout, status } = run("files", ["--version"]);
  assert.equal(status, 0);
  assert.equal(version.exec(stdout)?.[1], `native: ${MODINFO}`);
  assert.equal(version.exec(run("files", ["--version"], { modinfo: MODULE }).stdout)?.[1], `WebAssembly: ${MODULE}`);
});

test("a full disk is an error, a reader that ends isn't", () => {
  const folder = folderOf({ "a.js": "", "b.js": "" });
  for (const words of [".", "--entry a.js"]) {
    const full = shell(`$node $cli ${words} > /dev/full`, folder);
    const message = "the standard output: ENOSPC: no space left on device";
    assert.deepEqual([full.stderr, full.status], [`${NAME}: ${message}\n`, 1]);
    const ended = shell(`{ $node $cli ${words} || echo $? >&2; } | true`, folder);
    assert.deepEqual([ended.stderr, ended.status], ["", 0]);
  }
});

test("no more files are read once the reader of the output has ended", () => {
  const files = Array.from({ length: 300 }, (_, at) => [`src/${at}.js`, ""]);
  // After the first answer it waits until the reader has ended, and after ten more it has none.
  const folder = folderOf({ ...Object.fromEntries(files), modinfo: `#!/bin/bash
for _ in {0..10}; do
  IFS= read -r -d '' path || exit 0
  echo '{"specifier":"file:///a","info":{}}'
  until [[ -e ended ]]; do sleep 0.01; done
done
exec cat > /dev/null
` });
  chmodSync(join(folder, "modinfo"), 0o755);
  const { stdout } = shell("MODINFO=./modinfo $node $cli --jobs 1 src | { head -1; exec <&-; touch ended; }", folder);
  assert.equal(linesOf(stdout).length, 1);
});

test("a program that doesn't read files is named", () => {
  const folder = folderOf({ "a.js": "", old: "#!/bin/sh\necho usage >&2\nexit 2\n" });
  const old = join(folder, "old");
  chmodSync(old, 0o755);
  const hint = "(./modinfo --prove makes it in the repository, MODINFO names another)";
  for (const [modinfo, message] of [
    [old, `usage\n${NAME}: ${old} doesn't run with files --null: status 2 ${hint}\n`],
    ["/none", `${NAME}: /none doesn't run with files --null: spawn /none ENOENT ${hint}\n`],
    // This error of node's is thrown, those above come later.
    [`${old}/x`, `${NAME}: ${old}/x doesn't run with files --null: spawn ENOTDIR ${hint}\n`],
  ]) {
    const result = run("files", ["a.js"], { cwd: folder, modinfo });
    assert.deepEqual(result, { stdout: "", stderr: message, status: 1 });
  }
});

test("where modinfo ends over a file, that file alone has no answer", () => {
  const folder = folderOf({ "a.js": "", "b.js": "", "c.js": "" });
  const modinfo = join(folder, "modinfo");
  writeFileSync(modinfo, `#!/bin/bash
while IFS= read -r -d '' path; do
  case $path in *b.js) exit 3 ;; esac
  echo '{"specifier":"file:///a","info":{}}'
done
`);
  chmodSync(modinfo, 0o755);
  const found = answers(["."], folder, {
    modinfo, status: 1, stderr: `${NAME}: b.js: ${modinfo} ended with status 3\n`,
  });
  assert.deepEqual(found.map(({ info, fault: name }) => info ?? name), [{}, "Program", {}]);
});
