/** The graph and the resolution of the service, and what the options of all its calls have in common. */

import assert from "node:assert/strict";
import { spawnSync } from "node:child_process";
import { chmodSync, existsSync, readFileSync, rmSync, symlinkSync, writeFileSync } from "node:fs";
import { join } from "node:path";
import { after, test } from "node:test";

import { Modinfo } from "../modinfo-graph/dist/index.js";
import { MODINFO, folderOf, urlOf } from "./run_commands.mjs";
import { unchecked } from "./unchecked.mjs";

const modinfo = new Modinfo({ program: MODINFO });
after(() => modinfo.close());

const PROJECT = {
  "src/a.ts": `import { b } from "./b.js";\n`, "src/b.ts": `import "p"; import type { T } from "./t.js";\n`,
  "src/t.ts": "export type T = 1;\n", "src/c.test.ts": "", "src/wrong.ts": "let = ;",
  "node_modules/p/package.json": `{"exports":{"special":"./s.js","default":"./d.js"}}`,
  "node_modules/p/s.js": "", "node_modules/p/d.js": "",
};

/** @typedef {(signal: AbortSignal) => Promise<unknown>} Call */

/**
 * The paths of a graph's modules.
 * @param {string} folder
 * @param {import("../modinfo-graph/dist/index.js").Graph} graph
 */
const pathsOf = (folder, { modules }) => modules.map(({ specifier }) => specifier.slice(urlOf(folder, "src").length - 3));

test("a graph of paths has the modules and what each names", async () => {
  const folder = folderOf(PROJECT);
  const graph = await modinfo.graph({ paths: [join(folder, "src")], exclude: ["*.test.ts"] });
  assert.deepEqual(pathsOf(folder, graph), ["src/a.ts", "src/b.ts", "src/t.ts", "src/wrong.ts"]);
  assert.deepEqual(graph.modules[0].references, [{
    kind: "static", specifier: "./b.js", range: [[0, 18], [0, 26]],
    resolved: { class: "file", file: urlOf(folder, "src/b.ts"), by: "bundler" },
  }]);
  const wrong = graph.modules[3].fault;
  assert.deepEqual([wrong?.fault, wrong?.line, wrong?.column, graph.entries], ["Syntax", 1, 7, undefined]);
});

test("a graph of entries has what they lead to", async () => {
  const folder = folderOf(PROJECT);
  const entries = [new URL(urlOf(folder, "src/a.ts"))];
  const graph = await modinfo.graph({ entries });
  assert.deepEqual([graph.entries, pathsOf(folder, graph)], [[entries[0].href], ["src/a.ts", "src/b.ts"]]);
  assert.deepEqual(pathsOf(folder, await modinfo.graph({ entries, types: true, jobs: 2 })), [
    "src/a.ts", "src/b.ts", "src/t.ts",
  ]);
  assert.deepEqual(pathsOf(folder, await modinfo.graph({ entries, all: true, conditions: ["special"] })), [
    "src/a.ts", "src/b.ts", "node_modules/p/s.js",
  ]);
});

test("a graph answers questions, and has its modules as JSON", async () => {
  const folder = folderOf({
    "main.ts": "import './b';\nimport(`./p/${x}.js`);\nimport type { T } from './t';\nimport './none';\n",
    "b.ts": `import "./main";`, "p/a.js": "", "t.ts": "", "dead.js": `import "./b";`, "dead.test.js": `import "./help";`, "help.js": "",
  });
  const url = (/** @type {string} */ path) => urlOf(folder, path);
  const graph = await modinfo.graph({ paths: [folder], entries: [join(folder, "main.ts")], exclude: ["*.test.js"] });
  assert.deepEqual(graph.cycles(), { cycles: [{ modules: [url("b.ts"), url("main.ts")], path: [url("b.ts"), url("main.ts")] }], typeCycles: [] });
  const { unreached, mayBeReached, byTypes } = await graph.unreached();
  assert.deepEqual(unreached, [url("dead.js")]);
  assert.deepEqual(mayBeReached, [
    { module: url("help.js"), reason: { kind: "excluded", module: url("dead.test.js"), position: [0, 7], text: "./help" } },
    { module: url("p/a.js"), reason: { kind: "template", module: url("main.ts"), position: [1, 7], text: "./p/${..}.js" } },
  ]);
  assert.deepEqual(byTypes.map(({ module, by }) => [module, by.reference.specifier]), [[url("t.ts"), "./t"]]);
  assert.deepEqual(graph.why(join(folder, "b.ts")).map(({ module }) => module), [url("main.ts"), url("b.ts")]);
  assert.deepEqual(graph.why(url("dead.js")), []);
  assert.deepEqual(graph.dependents(new URL(url("b.ts"))), [url("dead.js"), url("main.ts")]);
  assert.deepEqual(graph.missing().map(({ module, reference }) => [module, reference.specifier]), [[url("main.ts"), "./none"]]);
  assert.deepEqual(Object.keys(JSON.parse(JSON.stringify(graph))), ["entries", "modules"]);
  assert.equal(graph.modules.length, 6);
});

test("without entries a graph has what no module leads to", async () => {
  const folder = folderOf({ "a.js": `import "./b.js";`, "b.js": "new URL('./c.js', import.meta.url)", "c.js": "" });
  const { unreached, mayBeReached } = await (await modinfo.graph({ paths: [folder] })).unreached();
  assert.deepEqual([unreached, mayBeReached.map(({ module }) => module)], [[urlOf(folder, "a.js")], [urlOf(folder, "c.js")]]);
});

test("a hook says what names lead to, and undefined leaves that to the rules", async () => {
  const folder = folderOf({ "a.ts": `import "virtual:x"; import "@/b"; import "./c"; import "./d";`, "src/b.ts": "", "c.ts": "", "d.ts": "" });
  /** @type {unknown[]} */
  const asked = [];
  /** @type {import("../modinfo-graph/dist/index.js").ResolveHook} */
  const resolve = async (specifier, from, { kind }) => {
    asked.push([specifier, from === urlOf(folder, "a.ts"), kind]);
    const found = specifier.startsWith("@/") ? join(folder, "src", `${specifier.slice(2)}.ts`) : undefined;
    return specifier === "./d" ? null : found;
  };
  const graph = await modinfo.graph({ entries: [join(folder, "a.ts")], resolve });
  assert.deepEqual(pathsOf(folder, graph).map((each) => each.replace(/^.*\//, "")), ["a.ts", "b.ts", "c.ts"]);
  assert.deepEqual(asked[1], ["@/b", true, "static"]);
  assert.deepEqual(graph.missing().map(({ reference }) => reference.specifier), ["./d"]);
});

test("a path with a zero byte names no file, whoever names it", async () => {
  const folder = folderOf({ "a.js": `import "b";`, "b.js": `import "c";`, "c.js": `import "d";`, "d.js": `import "e";` });
  const [zero, ...others] = ["a.js%00b.js", "c.js", "d.js"].map((name) => urlOf(folder, name).replace("%25", "%"));
  const named = await modinfo.graph({ paths: [zero, ...others], jobs: 1 });
  /** @type {import("../modinfo-graph/dist/index.js").ResolveHook} */
  const resolve = (specifier) => (specifier === "d" ? join(folder, "a.js\0b.js") : undefined);
  const led = await modinfo.graph({ paths: others, entries: [others[0]], resolve, jobs: 1 });
  for (const { modules } of [named, led]) {
    const found = modules.map(({ specifier, references, fault }) => [specifier, references[0]?.specifier ?? fault?.fault]);
    assert.deepEqual(found.sort(), [[zero, "Input"], [others[0], "d"], [others[1], "e"]]);
  }
});

test("a link leads each graph where it leads when that is read, and later questions where it led", async () => {
  const folder = folderOf({ "r1/main.js": `import "./a.js";`, "r1/a.js": "", "r2/main.js": `import "./b.js";`, "r2/b.js": "" });
  const link = join(folder, "current");
  const graphs = [];
  for (const target of ["r1", "r2"]) {
    rmSync(link, { force: true });
    symlinkSync(target, link);
    graphs.push(await modinfo.graph({ entries: [join(link, "main.js")] }));
  }
  const expected = [["r1/main.js", "r1/a.js"], ["r2/main.js", "r2/b.js"]].map((paths) => paths.map((path) => urlOf(folder, path)));
  assert.deepEqual(graphs.map(({ modules }) => modules.map(({ specifier }) => specifier)), expected);
  assert.deepEqual(graphs.map(({ entries }) => entries), expected.map(([entry]) => [entry]));
  assert.deepEqual(graphs.map((graph) => graph.why(join(link, "main.js")).map(({ module }) => module)), expected.map(([entry]) => [entry]));
});

test("a graph takes globs and packages", async () => {
  const folder = folderOf({ "package.json": `{"main":"./a.js"}`, "a.js": `import "./x/b.js";`, "x/b.js": `import "../c.js";`, "c.js": "" });
  const graph = await modinfo.graph({ entries: [folder], exclude: ["x"] });
  assert.deepEqual(graph.modules.map(({ specifier }) => specifier), [urlOf(folder, "a.js"), urlOf(folder, "c.js")]);
  const ignoring = await modinfo.graph({ entries: [folder], ignore: ["x"] });
  assert.deepEqual(ignoring.modules.map(({ specifier }) => specifier), [urlOf(folder, "a.js")]);
  await assert.rejects(modinfo.graph({ paths: [folder], exclude: ["!x"] }), {
    message: /^invalid glob: !x: a glob that begins with "!"/,
  });
});

test("the specifiers of a ModuleInfo are resolved in a copy", async () => {
  const folder = folderOf(PROJECT);
  const specifier = new URL(urlOf(folder, "src/b.ts"));
  const info = await modinfo.moduleInfo(PROJECT["src/b.ts"], specifier);
  /** @param {object} [options] */
  const classes = async (options) => {
    const { dependencies } = await modinfo.resolve(info, { specifier, ...options });
    return dependencies?.map(({ resolved }) => resolved);
  };
  const file = { class: "file", file: urlOf(folder, "src/t.ts"), by: "bundler" };
  /** @param {string} name */
  const inPackage = (name) => {
    return { class: "package", package: "p", file: urlOf(folder, `node_modules/p/${name}`), by: "node" };
  };
  assert.deepEqual(await classes(), [inPackage("d.js"), file]);
  assert.deepEqual(await classes({ conditions: ["special"] }), [inPackage("s.js"), file]);
  assert.equal(info.dependencies?.some((each) => "resolved" in each), false);
  const outside = { class: "outside", target: file.file };
  assert.deepEqual((await classes({ root: [join(folder, "node_modules")] }))?.[1], outside);
  const text = await modinfo.resolve(info, { specifier: specifier.href, types: false });
  assert.deepEqual(text.dependencies?.[1].resolved, file);
  writeFileSync(join(folder, "node_modules/p/package.json"), `{"exports":"./s.js"}`);
  assert.deepEqual(await classes(), [inPackage("s.js"), file]);
});

/** @param {Error} reason */
function abortedBy(reason) {
  const controller = new AbortController();
  controller.abort(reason);
  return controller.signal;
}

test("an aborted signal rejects each call", async () => {
  const folder = folderOf({ "a.ts": "" });
  const slow = join(folder, "slow");
  writeFileSync(slow, "#!/bin/sh\ntest $# = 2 && read -r line && sleep 60\n");
  chmodSync(slow, 0o755);
  const waiting = new Modinfo({ program: slow });
  const aborted = abortedBy(new Error("too late"));
  const specifier = "file:///a.ts";
  /** @type {Record<string, Call>} */
  const calls = {
    analyze: (signal) => waiting.analyze("{}", { signal }),
    convert: (signal) => waiting.convert({}, { signal }),
    reach: (signal) => waiting.reach("{}", { signal }),
    moduleInfo: (signal) => waiting.moduleInfo("", specifier, undefined, { signal }),
  };
  for (const call of Object.values(calls)) {
    await assert.rejects(call(aborted), { message: "too late" });
    const controller = new AbortController();
    const rejected = assert.rejects(call(controller.signal), { message: "enough" });
    controller.abort(new Error("enough"));
    await rejected;
  }
  /** @type {Call[]} */
  const more = [
    (signal) => modinfo.graph({ paths: [folder], signal }),
    (signal) => modinfo.resolve({}, { specifier, signal }),
    (signal) => modinfo.check({}, { signal }),
  ];
  for (const call of more) {
    await assert.rejects(call(aborted), { message: "too late" });
  }
});

test("an aborted graph ends its processes", async () => {
  const folder = folderOf({ "a.ts": "", "b.ts": "" });
  const slow = join(folder, "slow");
  writeFileSync(slow, `#!/bin/bash\nread -r -d '' path || exit 0\necho $$ >> '${folder}/log'\nexec sleep 60\n`);
  chmodSync(slow, 0o755);
  const waiting = new Modinfo({ program: slow, jobs: 1 });
  const controller = new AbortController();
  const rejected = assert.rejects(waiting.graph({ paths: [folder], signal: controller.signal }), { message: "enough" });
  while (!existsSync(join(folder, "log"))) {
    await new Promise(setImmediate);
  }
  controller.abort(new Error("enough"));
  await rejected;
  await waiting.close();
  const processes = readFileSync(join(folder, "log"), "utf8").trim().split("\n").map(Number);
  assert.equal(processes.length, 1);
  while (spawnSync("ps", ["-o", "stat=", "-p", String(processes[0])]).stdout.toString().match(/^[^Z]/)) {
    await new Promise(setImmediate);
  }
});

test("options that there aren't, and values that they can't have, are refused", async () => {
  const specifier = "file:///a.ts";
  /** @type {[call: () => Promise<unknown>, message: RegExp][]} */
  const refused = [
    [() => modinfo.moduleInfo("", specifier, "Jsx", unchecked({ mediatype: "Jsx" })), /^unknown option mediatype: /],
    [() => modinfo.analyze("{}", unchecked({ sginal: 1 })), /^unknown option sginal: /],
    [() => modinfo.check({}, unchecked({ commands: "reach" })), /^unknown option commands: /],
    [() => modinfo.graph(unchecked({ path: "." })), /^unknown option path: /],
    [() => modinfo.graph({}), /^paths or entries must be given/],
    [() => modinfo.graph(unchecked({ paths: [1] })), /^a path must be a path or the URL of a file, not 1$/],
    [() => modinfo.graph(unchecked({ paths: ["."], types: "no" })), /^gitignore, all, types and dynamic must be true or false$/],
    [() => modinfo.graph({ paths: ["."], jobs: 0 }), /^jobs must be a whole number/],
    [() => modinfo.graph(unchecked({ paths: ["."], resolve: "x" })), /^resolve must be a function, not x$/],
    [() => modinfo.resolve({}, { specifier: "a.ts" }), /^specifier must be the URL of a file, not a\.ts$/],
    [() => modinfo.resolve(unchecked(null), { specifier }), /^a ModuleInfo must be an object, not null$/],
    [() => modinfo.resolve({}, { specifier, conditions: ["a b"] }), /^conditions must be an array of names$/],
    [() => modinfo.reach("{}", unchecked({ signal: 1 })), /^signal must be an AbortSignal$/],
  ];
  for (const [call, message] of refused) {
    await assert.rejects(async () => call(), { name: "TypeError", message });
  }
  assert.throws(() => new Modinfo(unchecked({ job: 2 })), { name: "TypeError", message: /^unknown option job: / });
});

test("where the program can't be started, a graph is rejected", async () => {
  const none = new Modinfo({ program: "/none/modinfo" });
  await assert.rejects(none.graph({ paths: ["."] }), { name: "ProgramEnd", message: /ENOENT/ });
  await none.close();
  await assert.rejects(none.graph({ paths: ["."] }), { name: "ProgramEnd", message: "modinfo is closed" });
});
