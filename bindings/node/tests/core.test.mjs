/** The WebAssembly module: when it is there, what ends an instance of it, and what is handed to it. */

import assert from "node:assert/strict";
import { spawnSync } from "node:child_process";
import { existsSync, readFileSync } from "node:fs";
import { createRequire } from "node:module";
import { test } from "node:test";

import { Core } from "../modinfo/dist/core/instance.cjs";
import { functionsOf } from "../modinfo/dist/core/functions.cjs";
import { bytesOfText } from "../modinfo/dist/core/module_text.cjs";
import { MEDIA_TYPES, NUMBERS } from "../modinfo/dist/core/plans.cjs";
import { MODULE } from "./run_commands.mjs";
import { readSchema } from "./schema.mjs";
import { unchecked } from "./unchecked.mjs";

const skip = !existsSync(MODULE) && "build/modinfo.wasm isn't made";
const bytes = skip ? Buffer.alloc(0) : readFileSync(MODULE);
const { WebAssembly } = /** @type {any} */ (globalThis);
const TEXT = 'import "./b.js";';
const URL_OF_TEXT = "file:///a.js";
const SPECIFIERS = ["./b.js"];

/**
 * The functions with a module of their own.
 * @param {Uint8Array} [module]
 */
const functionsWith = (module = bytes) => functionsOf(() => module);

/** @param {any} info */
const specifiersOf = (info) => info.dependencies.map((/** @type {any} */ each) => each.specifier);

/**
 * The module with other bytes in a place.
 * @param {number[]} from occur once
 * @param {number[]} to as many
 */
function changed(from, to) {
  const module = Buffer.from(bytes);
  const at = module.indexOf(Buffer.from(from));
  assert.deepEqual([at >= 0, module.indexOf(Buffer.from(from), at + 1)], [true, -1]);
  module.set(to, at);
  return module;
}

/**
 * A section's content.
 * @param {string} name
 */
const customSection = (name) => Buffer.from(WebAssembly.Module.customSections(new WebAssembly.Module(bytes), name)[0]);

test("the numbers are those of the header", () => {
  const header = readFileSync(new URL("../../../include/modinfo.h", import.meta.url), "utf8");
  const numbers = Object.fromEntries([...header.matchAll(/^ +MODINFO_(\w+) = (\d+)/gm)].map(([, name, number]) => [name, Number(number)]));
  for (const [index, name] of MEDIA_TYPES.entries()) {
    assert.equal(numbers[name.toUpperCase()], index + 1, name);
  }
  assert.deepEqual(new Set(MEDIA_TYPES), new Set(readSchema("document").properties.mediaType.enum));
  for (const [command, own] of NUMBERS) {
    const [name, kind] = command.split(" --");
    const suffix = name === "analyze" ? "" : `_${name.toUpperCase()}`;
    const wanted = kind
      ? [`ANALYZE_${kind.toUpperCase()}`, `CHECK_${kind.toUpperCase()}`]
      : [name.toUpperCase(), `CHECK${suffix}`];
    assert.deepEqual(own, wanted.map((each) => numbers[each]), command);
  }
});

test("the module imports nothing, and says what it was made of", { skip }, () => {
  const module = new WebAssembly.Module(bytes);
  assert.deepEqual(WebAssembly.Module.imports(module), []);
  const [kind, sources, target] = String(customSection("modinfo")).split("\n");
  assert.deepEqual([kind, sources], readFileSync(`${MODULE}.origin`, "utf8").split("\n", 2));
  assert.match(target, /^target wasm32-/);
});

test("an argument of which nothing is known is missing, or has unknown parts alone", { skip }, async () => {
  const { dependencies = [] } = await functionsWith().moduleInfo("import(x); import(`${x}`); import(`./${x}`);", URL_OF_TEXT);
  const [part, text] = [{ type: "expr" }, { type: "string", value: "./" }];
  assert.deepEqual(dependencies.map((each) => each.type === "dynamic" && each.argument), [undefined, [part], [text, part]]);
});

test("functions without a promise need the module before", { skip }, async () => {
  const own = functionsWith();
  const names = Object.keys(own).filter((name) => name.endsWith("Sync") && name !== "initSync");
  assert.equal(names.length, 7);
  for (const name of names) {
    const words = { analyzeEstreeSync: [{ type: "Program", body: [], comments: [] }, "", "file:///a", "Mjs"] }[name] ?? ["1", "file:///a"];
    const count = /Source|Info|Estree/.test(name) ? words.length : 1;
    assert.throws(() => /** @type {any} */ (own)[name](...words.slice(0, count)), { name: "Error", message: "the module isn't loaded yet: call initSync, or wait for init" }, name);
  }
  await own.init();
  assert.deepEqual(specifiersOf(own.moduleInfoSync(TEXT, URL_OF_TEXT)), SPECIFIERS);
  assert.deepEqual(own.moduleInfoSync(TEXT, URL_OF_TEXT), await own.moduleInfo(TEXT, URL_OF_TEXT));
  assert.deepEqual(own.checkSourceSync(TEXT, URL_OF_TEXT), { valid: true });
});

test("the module is handed over, as bytes too", { skip }, () => {
  for (const source of [bytes, new WebAssembly.Module(bytes), Uint8Array.from(bytes).buffer]) {
    const own = functionsOf(() => assert.fail("not asked"));
    own.initSync(source);
    assert.deepEqual(specifiersOf(own.moduleInfoSync(TEXT, URL_OF_TEXT)), SPECIFIERS);
  }
  assert.throws(() => functionsWith().initSync(Uint8Array.of(1)), { name: "CompileError" });
});

test("a module that can't be loaded is asked for again", { skip }, async () => {
  let asked = 0;
  const own = functionsOf(() => {
    asked += 1;
    return asked === 1 ? assert.fail("not there") : bytes;
  });
  const first = await Promise.allSettled([own.moduleInfo(TEXT, URL_OF_TEXT), own.init()]);
  assert.deepEqual(first.map((/** @type {any} */ { status, reason }) => [status, reason?.message]), Array(2).fill(["rejected", "not there"]));
  assert.deepEqual(specifiersOf(await own.moduleInfo(TEXT, URL_OF_TEXT)), SPECIFIERS);
  assert.equal(asked, 2);
});

test("by require too, with initSync before", { skip }, () => {
  const script = `
    const { initSync, moduleInfoSync, moduleInfo } = require(${JSON.stringify(createRequire(import.meta.url).resolve("../modinfo/dist/index.cjs"))});
    initSync();
    console.log(moduleInfoSync('import "./b.js";', "file:///a.js").dependencies[0].specifier);
    moduleInfo('import "./c.js";', "file:///a.js").then((info) => console.log(info.dependencies[0].specifier));`;
  const { stdout, stderr } = spawnSync(process.execPath, ["--eval", script], { env: { ...process.env, MODINFO_WASM: MODULE } });
  assert.deepEqual([String(stdout), String(stderr)], ["./b.js\n./c.js\n", ""]);
});

test("the text of the module has all bytes, however frequent they are", async () => {
  const { literalOf } = await import("../bundle.mjs");
  const every = Array.from({ length: 256 }, (_, byte) => byte);
  for (const some of [[], [0], every, [...every.slice(200), ...every, ...every.slice(200), 255]]) {
    const literal = literalOf(Buffer.from(some));
    assert.match(literal, /^"[!#-[\]-~]*"$/);
    assert.deepEqual([...bytesOfText(literal.slice(1, -1))], some);
  }
});

test("the arguments are read at the call", { skip }, async () => {
  const own = functionsWith();
  const graph = { root: "a", modules: { a: {} } };
  const keys = own.reach(graph);
  graph.root = "b";
  assert.deepEqual(await keys, ["a"]);
});

test("a signal that is aborted rejects a call", { skip }, async () => {
  const own = functionsWith();
  const controller = new AbortController();
  const call = own.moduleInfo(TEXT, URL_OF_TEXT, undefined, { signal: controller.signal });
  controller.abort(new Error("no longer needed"));
  await assert.rejects(call, { message: "no longer needed" });
  await assert.rejects(own.reach("{}", { signal: controller.signal }), { message: "no longer needed" });
  await assert.rejects(own.reach("{}", { signal: unchecked(1) }), { name: "TypeError", message: "signal must be an AbortSignal" });
});

/** A text that the parser takes much of the module's stack for. */
const DEEP = `${"a?[".repeat(150)}1${"]:1".repeat(150)};`;

test("after the module's stack has overflowed, the next call is right", { skip }, () => {
  // A variable of 64 bits has where the stack begins: 2 MiB, 8 KiB here.
  const own = functionsWith();
  own.initSync(changed([0x7e, 0x01, 0x42, 0x80, 0x80, 0x80, 0x01, 0x0b], [0x7e, 0x01, 0x42, 0x80, 0xc0, 0x80, 0x00, 0x0b]));
  for (let turn = 0; turn < 3; turn++) {
    assert.throws(() => own.moduleInfoSync(DEEP, URL_OF_TEXT), { name: "ModinfoFault", fault: "Stack", message: /^Stack: .*out of bounds/ });
    assert.deepEqual(specifiersOf(own.moduleInfoSync(TEXT, URL_OF_TEXT)), SPECIFIERS);
  }
  const whole = functionsWith();
  whole.initSync(bytes);
  assert.deepEqual(whole.checkSourceSync(DEEP, URL_OF_TEXT), { valid: true });
});

test("after the thread's stack has overflowed, the next call is right", { skip }, () => {
  const script = `
    import { initSync, moduleInfoSync } from ${JSON.stringify(new URL("../modinfo/dist/index.js", import.meta.url).href)};
    initSync();
    const print = (text) => {
      try { console.log(moduleInfoSync(text, "file:///a.js").dependencies.length); } catch ({ name, fault }) { console.log(name, fault); }
    };
    print('import "a";');
    print(${JSON.stringify(DEEP)});
    print('import "a"; import "b";');`;
  const words = ["--stack-size=100", "--input-type=module", "--eval", script];
  const { stdout, stderr } = spawnSync(process.execPath, words, { env: { ...process.env, MODINFO_WASM: MODULE } });
  assert.deepEqual([String(stdout), String(stderr)], ["1\nModinfoFault Stack\n2\n", ""]);
});

test("out of memory", { skip }, () => {
  // The memory, of 2 MiB of stack, constants and one call, may not grow.
  const [{ memory }] = [new WebAssembly.Instance(new WebAssembly.Module(bytes)).exports];
  const pages = memory.buffer.byteLength / 65536;
  const own = functionsWith();
  own.initSync(changed([0x05, 0x06, 0x01, 0x01, pages, 0x80, 0x80, 0x02], [0x05, 0x06, 0x01, 0x01, pages, 0x80 | pages, 0x80, 0x00]));
  for (const call of [own.moduleInfoSync, own.checkSourceSync]) {
    assert.throws(() => call(TEXT.repeat(100_000), URL_OF_TEXT), { name: "ModinfoFault", fault: "OutOfMemory" });
  }
  assert.throws(() => own.analyzeSync(" ".repeat(4_000_000)), { name: "ModinfoFault", fault: "OutOfMemory" });
});

test("an instance with much memory is given up after its call", { skip }, () => {
  const module = new WebAssembly.Module(bytes);
  for (const [pages, isKept] of /** @type {[number, boolean][]} */ ([[16, true], [4096, false]])) {
    const { exports: own } = new WebAssembly.Instance(module);
    own.memory.grow(pages);
    let calls = 0;
    const counting = (/** @type {number[]} */ ...words) => {
      calls += 1;
      return own.analyze_source(...words);
    };
    const core = new Core(module, { exports: { ...own, analyze_source: counting } });
    for (let turn = 0; turn < 3; turn++) {
      assert.ok(core.runSource("analyze_source", TEXT, URL_OF_TEXT, 0).isAnswer);
    }
    assert.equal(calls, isKept ? 3 : 1);
  }
});

test("a text of more bytes than the module has is out of memory, whatever its length is in 32 bits", { skip }, () => {
  const core = new Core(bytes);
  const endless = /** @type {any} */ ({ length: 2 ** 32 + 1 });
  assert.deepEqual(core.run(0, endless), { isAnswer: false, text: "OutOfMemory" });
  assert.deepEqual(core.run(2, '{"root":"a","modules":{"a":{}}}'), { isAnswer: true, text: '["a"]\n' });
});

test("an answer may be longer than its document", { skip }, () => {
  const own = functionsWith();
  own.initSync(bytes);
  const text = 'import"";'.repeat(3000);
  assert.equal(own.moduleInfoSync(text, URL_OF_TEXT).dependencies?.length, 3000);
});
