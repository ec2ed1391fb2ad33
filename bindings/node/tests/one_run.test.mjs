/** Several questions in one run, options in package.json, and findings that a project knows. */

import assert from "node:assert/strict";
import { chmodSync, readFileSync } from "node:fs";
import { join } from "node:path";
import { test } from "node:test";

import { MODINFO, folderOf, run, urlOf } from "./run_commands.mjs";

const NAME = "modinfo-files";

/**
 * What modinfo-files prints in a folder, as lines.
 * @param {string[]} words
 * @param {string} cwd
 */
function asked(words, cwd) {
  const { stdout, stderr, status } = run("files", words, { cwd });
  return { lines: stdout.split("\n").slice(0, -1), stderr, status };
}

/** A cycle, a name that leads nowhere, and a file that nothing reaches. */
const FILES = {
  "src/main.js": `import "./a.js";\nimport(\`./pages/\${x}.js\`);\n`, "src/a.js": `import "./b.js";\n`,
  "src/b.js": `import "./a.js";\nimport "./none.js";\n`, "src/dead.js": "", "src/pages/p.js": "",
  "src/through.js": "", "src/pages/q.js": `import "../through.js";\n`,
};

const GAP = `${NAME}: of what is reached 1 relative name leads to no file: more may be reached than is known\n`;

test("several questions are answered in one run, each below its name, and any finding makes the status 1", () => {
  const folder = folderOf(FILES);
  assert.deepEqual(asked(["--cycles", "--missing", "--unreached", "--entry", "src/main.js", "src"], folder), {
    lines: [
      "cycles: 1", "  src/a.js -> src/b.js -> src/a.js",
      "missing: 1", "  src/b.js:2:8: ./none.js: not found",
      "unreached: 1", "  src/dead.js",
      "  src/pages/p.js: may be reached: template of ./pages/${..}.js at src/main.js:2:8",
      "  src/pages/q.js: may be reached: template of ./pages/${..}.js at src/main.js:2:8",
      "  src/through.js: may be reached: import of ../through.js at src/pages/q.js:1:8",
    ],
    stderr: GAP, status: 1,
  });
  const none = folderOf({ "a.js": `import "./b.js";`, "b.js": "" });
  const clean = { lines: ["cycles: 0", "missing: 0", "unreached: 0"], stderr: "", status: 0 };
  assert.deepEqual(asked(["--unreached", "--missing", "--cycles", "--entry", "a.js", "."], none), clean);
  // The second question alone has a finding.
  const second = folderOf({ "a.js": `import "./none.js";` });
  assert.equal(asked(["--cycles", "--missing", "."], second).status, 1);
});

test("--json has the answers of all questions", () => {
  const folder = folderOf(FILES);
  const words = ["--json", "--cycles", "--missing", "--unreached", "--entry", "src/main.js", "src"];
  const data = JSON.parse(asked(words, folder).lines[0]);
  assert.deepEqual(Object.keys(data).sort(), [
    "byTypes", "cycles", "entries", "foundByOthers", "mayBeReached", "missing", "unreached",
  ]);
  assert.deepEqual(data.unreached, [urlOf(folder, "src/dead.js")]);
  assert.deepEqual(data.cycles[0].modules, ["src/a.js", "src/b.js"].map((path) => urlOf(folder, path)));
  assert.deepEqual(data.missing.map((/** @type {any} */ { specifier }) => specifier), ["./none.js"]);
});

/**
 * The path of a program that runs `modinfo`, and writes down how it was started.
 * @param {string} folder
 */
function logged(folder) {
  const program = join(folder, "modinfo");
  chmodSync(program, 0o755);
  return program;
}

test("files are read once for all questions, and the program is asked for nothing else", () => {
  const log = folderOf({ "modinfo": `#!/bin/sh\necho "$*" >> "$(dirname "$0")/log"\nexec "${MODINFO}" "$@"\n`, "log": "" });
  const words = ["--cycles", "--missing", "--unreached", "--jobs", "1", "--entry", "src/main.js", "src"];
  const { status } = run("files", words, { cwd: folderOf(FILES), modinfo: logged(log) });
  const others = readFileSync(join(log, "log"), "utf8").split("\n").filter((line) => !["files --null", ""].includes(line));
  assert.deepEqual([status, others], [1, []]);
});

test("a picture, --why and --dependents are asked alone", () => {
  const folder = folderOf(FILES);
  for (const other of [["--dot"], ["--mermaid"], ["--why", "src/a.js"], ["--dependents", "src/a.js"]]) {
    const words = ["--cycles", ...other, "--entry", "src/main.js", "src"];
    const stderr = `${NAME}: ${other[0]} can't be combined with --cycles\n`;
    assert.deepEqual(asked(words, folder), { lines: [], stderr, status: 2 });
  }
});

test("cycles that types alone may close are marked in JSON, and are no finding of --cycles=runs", () => {
  const folder = folderOf({
    "a.ts": `import { B } from "./b";`, "b.ts": `import { A } from "./a";`,
    "c.js": `import { d } from "./d.js";`, "d.js": `import { c } from "./c.js";`,
  });
  const note = (/** @type {string} */ count) => {
    return `${NAME}: ${count} cycles may be of types alone: a compiler removes imports of TypeScript whose names are types\n`;
  };
  const run = ["a.ts -> b.ts -> a.ts", "c.js -> d.js -> c.js"];
  assert.deepEqual(asked(["--cycles", "."], folder), { lines: run, stderr: note("1 of 2"), status: 1 });
  const { cycles } = JSON.parse(asked(["--cycles", "--json", "."], folder).lines[0]);
  assert.deepEqual(cycles.map((/** @type {any} */ { perhapsOfTypes }) => perhapsOfTypes), [true, undefined]);
  assert.deepEqual(asked(["--cycles=runs", "."], folder), {
    lines: [run[1], `perhaps by types alone: ${run[0]}`], stderr: note("1 of 2"), status: 1,
  });
  assert.deepEqual(asked(["--cycles=runs", "a.ts", "b.ts"], folder), {
    lines: [`perhaps by types alone: ${run[0]}`], stderr: note("1 of 1"), status: 0,
  });
  assert.equal(asked(["--cycles", "a.ts", "b.ts"], folder).status, 1);
  assert.match(asked(["--cycles=walks", "."], folder).stderr, /^modinfo-files: Option '--cycles' does not take an argument\n/);
});

test("--why of what may be reached has the reason, and the chain to it", () => {
  const folder = folderOf({ ...FILES, "src/main.js": `import "./pager.js";`, "src/pager.js": `import(\`./pages/\${x}.js\`);` });
  const why = (/** @type {string} */ file) => asked(["--entry", "src/main.js", "--why", file, "src"], folder);
  const before = ["src/main.js", "src/pager.js (./pager.js at src/main.js:1:8)"];
  const reason = "src/pages/q.js: may be reached: template of ./pages/${..}.js at src/pager.js:1:8";
  assert.deepEqual(why("src/pages/q.js"), { lines: [...before, reason], stderr: "", status: 0 });
  assert.deepEqual(why("src/through.js"), {
    lines: [...before, reason, "src/through.js: may be reached: import of ../through.js at src/pages/q.js:1:8"],
    stderr: "", status: 0,
  });
  // Without a PATH what is asked for is read all the same.
  assert.deepEqual(asked(["--entry", "src/main.js", "--why", "src/pages/q.js"], folder).lines, [...before, reason]);
  assert.deepEqual(why("src/dead.js"), { lines: [], stderr: `${NAME}: no entry reaches src/dead.js\n`, status: 1 });
  const { mayBeReached } = JSON.parse(asked(["--json", "--entry", "src/main.js", "--why", "src/pages/q.js"], folder).lines[0]);
  assert.deepEqual(mayBeReached.map((/** @type {any} */ { module, reason: { kind } }) => [module, kind]), [
    [urlOf(folder, "src/pages/q.js"), "template"],
  ]);
});

test("--why of what types alone reach has the name that does", () => {
  const folder = folderOf({ "main.ts": `import type { T } from "./t";`, "t.ts": "export type T = 1;" });
  assert.deepEqual(asked(["--entry", "main.ts", "--why", "t.ts"], folder), {
    lines: ["t.ts: reached by types alone: ./t at main.ts:1:24"], stderr: "", status: 0,
  });
});

test("a file that is asked for and isn't there is a usage error", () => {
  const folder = folderOf(FILES);
  for (const question of ["--why", "--dependents"]) {
    assert.deepEqual(asked(["--entry", "src/main.js", question, "src/no.js", "src"], folder), {
      lines: [], stderr: `${NAME}: src/no.js: no such file\n`, status: 2,
    });
  }
});

test("--forbid prints the edges from files of a glob to those of another one, each with a shortest way to it", () => {
  const folder = folderOf({
    "src/main.js": `import "./ui/page.js";`, "src/ui/page.js": `import "./button.js";\nimport "../lib/util.js";`,
    "src/ui/button.js": `import "../db/query.js";\nimport fs from "node:fs";\nimport "left-pad";`,
    "src/lib/util.js": `import "../db/query.js";`, "src/db/query.js": "",
  });
  const words = ["--entry", "src/main.js", "src"];
  const way = "src/main.js -> src/ui/page.js -> src/ui/button.js";
  // util.js leads to the database, and is in another folder; page.js reaches it by others alone.
  assert.deepEqual(asked(["--forbid", "src/ui:src/db", ...words], folder), {
    lines: [`src/ui/button.js:1:8: ../db/query.js: forbidden by src/ui:src/db: ${way} -> src/db/query.js`],
    stderr: "", status: 1,
  });
  assert.deepEqual(asked(["--forbid", "src/ui/**:{fs,left-pad}", "--forbid", "**/db/*.js:src/ui", ...words], folder).lines, [
    `src/ui/button.js:2:16: node:fs: forbidden by src/ui/**:{fs,left-pad}: ${way} -> fs`,
    `src/ui/button.js:3:8: left-pad: forbidden by src/ui/**:{fs,left-pad}: ${way} -> left-pad`,
  ]);
  assert.deepEqual(asked(["--forbid", "src/db:src/ui", ...words], folder), { lines: [], stderr: "", status: 0 });
  assert.deepEqual(asked(["--forbid", "src/ui:src/lib", "src"], folder).lines, [
    "src/ui/page.js:2:8: ../lib/util.js: forbidden by src/ui:src/lib: src/ui/page.js -> src/lib/util.js",
  ]);
  const [{ rule, module, specifier, way: urls }] = JSON.parse(asked(["--json", "--forbid", "src/ui:src/db", ...words], folder).lines[0]).forbidden;
  assert.deepEqual([rule, module, specifier, urls.length], ["src/ui:src/db", urlOf(folder, "src/ui/button.js"), "../db/query.js", 4]);
  assert.deepEqual(asked(["--forbid", "src/ui", "src"], folder), {
    lines: [], stderr: `${NAME}: invalid glob: src/ui: a rule is FROM:TO, two globs\n`, status: 2,
  });
});

/** @param {object} modinfo @param {Record<string, string>} [files] */
const withOptions = (modinfo, files = FILES) => folderOf({ ...files, "package.json": JSON.stringify({ type: "module", modinfo }) });

test("without words the questions, entries and paths are those of package.json", () => {
  const folder = withOptions({ cycles: true, unreached: true, entry: "src/main.js", paths: ["src"], exclude: ["dead.js"] });
  assert.deepEqual(asked([], folder), {
    lines: [
      "cycles: 1", "  src/a.js -> src/b.js -> src/a.js", "unreached: 0",
      "  src/pages/p.js: may be reached: template of ./pages/${..}.js at src/main.js:2:8",
      "  src/pages/q.js: may be reached: template of ./pages/${..}.js at src/main.js:2:8",
      "  src/through.js: may be reached: import of ../through.js at src/pages/q.js:1:8",
    ],
    stderr: GAP, status: 1,
  });
  // A word takes the place of an option, and a question that of all questions.
  assert.deepEqual(asked(["--missing"], folder).lines, ["src/b.js:2:8: ./none.js: not found"]);
  assert.deepEqual(asked(["--cycles", "src/dead.js", "--entry", "src/dead.js"], folder).lines, []);
  assert.match(asked([], withOptions({})).stderr, /^modinfo-files: usage: /);
});

test("lines of JSON for files don't depend on package.json", () => {
  const folder = withOptions({ cycles: true, entry: ["src/main.js"] });
  assert.deepEqual(asked(["src/dead.js"], folder).lines, [`{"specifier":"${urlOf(folder, "src/dead.js")}","info":{"script":true}}`]);
});

test("findings that package.json knows aren't reported, and --known prints them as it has them", () => {
  const words = ["--cycles", "--missing", "--unreached", "--entry", "src/main.js", "src"];
  const known = JSON.parse(asked([...words, "--known"], folderOf(FILES)).lines[0]);
  assert.deepEqual(known, {
    cycles: ["src/a.js src/b.js"], missing: ["src/b.js: ./none.js"], unreached: ["src/dead.js"],
  });
  const folder = withOptions({ known });
  const { lines, stderr, status } = asked(["--cycles", "--missing", "--entry", "src/main.js", "src"], folder);
  assert.deepEqual([lines, status], [["cycles: 0", "missing: 0"], 0]);
  assert.equal(stderr, `${NAME}: --cycles: known findings: 1\n${NAME}: --missing: known findings: 1\n`);
  assert.deepEqual(JSON.parse(asked(["--missing", "--json", "src"], folder).lines[0]).missing, []);
  // The lines may change. What is new is a finding; a module more is another cycle.
  const next = withOptions({ known: { ...known, unreached: ["src/gone.js"] } }, {
    ...FILES, "src/b.js": `\n\nimport "./none.js";\nimport "./c.js";\nimport "./other.js";\n`, "src/c.js": `import "./a.js";`,
  });
  const later = asked(words, next);
  assert.deepEqual([later.lines.slice(0, 5), later.status], [[
    "cycles: 1", "  src/a.js -> src/b.js -> src/c.js -> src/a.js",
    "missing: 1", "  src/b.js:5:8: ./other.js: not found", "unreached: 1",
  ], 1]);
  assert.ok(later.stderr.includes(`${NAME}: --unreached: known findings that are gone: 1\n`), later.stderr);
});

test("package.json names no file outside of its folder, and has no option that writes or runs something", () => {
  const wrong = {
    "modinfo has no option cache: ": { cache: "x" }, "modinfo has no option gitignore: ": { gitignore: true },
    "the option exclude of modinfo has an invalid value": { exclude: 1 },
    "the option cycles of modinfo has an invalid value": { cycles: "x" },
    "modinfo names ../x.js, which is outside its folder": { entry: ["../x.js"] },
    "modinfo names /etc/x.json, which is outside its folder": { tsconfig: "/etc/x.json" },
    "modinfo names -, which is outside its folder": { paths: ["-"] },
    "known of modinfo has graph: ": { known: { graph: [] } },
  };
  for (const [message, options] of Object.entries(wrong)) {
    const { stderr, status } = asked(["--cycles", "src"], withOptions(options));
    assert.deepEqual([stderr.startsWith(`${NAME}: package.json: ${message}`), status], [true, 2], stderr);
  }
  assert.equal(asked(["--cycles", "src/dead.js"], folderOf({ ...FILES, "package.json": `{"modinfo":7}` })).status, 0);
});

test("a report has the entries of package.json", () => {
  const folder = withOptions({ entry: ["src/main.js"], paths: ["src"], exclude: ["none"] });
  const { stderr, status } = run("report", ["-o", "page.html"], { cwd: folder });
  assert.deepEqual([stderr, status], [GAP.replace(NAME, "modinfo-report"), 1]);
  assert.match(readFileSync(join(folder, "page.html"), "utf8"), /"entries":\[\d+\]/);
});
