/** The service of the package. */

import assert from "node:assert/strict";
import { spawnSync } from "node:child_process";
import { existsSync, readdirSync, readFileSync } from "node:fs";
import { createRequire } from "node:module";
import { test } from "node:test";
import { fileURLToPath } from "node:url";

import { Modinfo } from "../modinfo-graph/dist/index.js";
import { ModinfoFault, ProgramEnd, analyze, convert, moduleInfo, reach } from "../modinfo/dist/index.js";
import { MODULE } from "./run_commands.mjs";
import { unchecked } from "./unchecked.mjs";

/**
 * @typedef {import("../modinfo/dist/index.js").ModuleDocument} ModuleDocument
 * @typedef {import("../modinfo/dist/index.js").ModuleInfo} ModuleInfo
 */

const EXAMPLES = new URL("../../../examples/", import.meta.url);

const isMissing = !existsSync(MODULE) && "build/modinfo.wasm isn't made";

/** @param {string} name */
function readExample(name) {
  return JSON.parse(readFileSync(new URL(name, EXAMPLES), "utf8"));
}

/**
 * A document of its own for each number, and what has to be the answer to it.
 * @param {number} number
 * @returns {{ document: ModuleDocument, info: ModuleInfo }}
 */
function numbered(number) {
  const [line, name] = [number % 7, `./${number}.js`];
  const end = line + `import "${name}";`.length;
  return {
    document: {
      specifier: "file:///a.js", mediaType: "JavaScript",
      source: `${"\n".repeat(line)}import "${name}";`,
      program: {
        range: [line, end],
        body: [{ kind: "ImportDecl", range: [line, end], src: { value: name, range: [line + 7, end - 1] } }],
      },
    },
    info: {
      dependencies: [{
        kind: "import", sideEffect: true, specifier: name,
        specifierRange: [[line, 7], [line, 7 + `"${name}"`.length]], type: "static",
      }],
    },
  };
}

const NUMBERS = Array.from({ length: 1000 }, (_, number) => number);

test("the examples", { skip: isMissing }, async () => {
  const modinfo = new Modinfo();
  for (const file of readdirSync(EXAMPLES).filter((each) => each.endsWith(".out.json"))) {
    const expected = readExample(file);
    const document = readExample(file.replace(".out.json", ".json"));
    const json = JSON.stringify(document, undefined, 1);
    for (const form of [document, json, new TextEncoder().encode(json)]) {
      assert.deepEqual(await modinfo.analyze(form), expected, file);
    }
    const { source, specifier, mediaType } = document;
    assert.deepEqual(await modinfo.moduleInfo(source, specifier, mediaType), expected, file);
  }
  assert.deepEqual(await modinfo.reach(readExample("site.reach.json")), readExample("site.reached.json"));
  await modinfo.close();
});

test("5,000 documents and texts", { skip: isMissing }, async () => {
  const modinfo = new Modinfo();
  /** @param {number} number */
  const check = async (number) => {
    const { document, info } = numbered(number);
    assert.deepEqual(await modinfo.analyze(document), info);
    assert.deepEqual(await modinfo.moduleInfo(document.source, new URL(document.specifier)), info);
  };
  await Promise.all(Array.from({ length: 5000 }, (_, number) => check(number)));
  await modinfo.close();
});

test("closing it while it is at work", { skip: isMissing }, async () => {
  const modinfo = new Modinfo();
  const answers = NUMBERS.map((number) => modinfo.analyze(numbered(number).document));
  const texts = NUMBERS.map((number) => modinfo.moduleInfo(numbered(number).document.source, "file:///a.js"));
  const wrong = modinfo.moduleInfo("(", "file:///a.js").catch(({ line, column }) => [line, column]);
  const closed = modinfo.close();
  await assert.rejects(modinfo.analyze(numbered(0).document), { name: "ProgramEnd", message: "modinfo is closed" });
  await assert.rejects(modinfo.moduleInfo("", "file:///a.js"), ProgramEnd);
  await closed;
  assert.deepEqual(await Promise.all(answers), NUMBERS.map((number) => numbered(number).info));
  assert.deepEqual(await Promise.all(texts), NUMBERS.map((number) => numbered(number).info));
  assert.deepEqual(await wrong, [1, 2]);
  await modinfo.close();
});

test("texts with a fault", { skip: isMissing }, async () => {
  const modinfo = new Modinfo();
  /**
   * @param {string} text
   * @param {object} fault
   * @param {any[]} words
   */
  const refused = (text, fault, words = ["file:///a.ts"]) => {
    const [specifier, mediaType] = words;
    return assert.rejects(modinfo.moduleInfo(text, specifier, mediaType), { name: "ModinfoFault", ...fault });
  };
  await refused("let a;\nlet é = ;", { fault: "Syntax", line: 2, column: 9 });
  await refused("let a;\nlet 😀 = ;", { fault: "Syntax", line: 2, column: 5 });
  await refused("a('\ud800')", { fault: "Input", message: "Input: a lone surrogate isn't UTF-8" });
  await refused("(".repeat(100_000), { fault: "Syntax", line: 1 });
  await refused("", { fault: "Specifier" }, ["./a.ts"]);
  const url = "file:///\ud800.ts";
  await refused("", { fault: "Specifier", message: "Specifier: an absolute URL can't have a lone surrogate" }, [url]);
  const tree = { type: "Program", start: 0, end: 0, body: [], comments: [] };
  await assert.rejects(modinfo.analyzeEstree(tree, "", url, "TypeScript"), { fault: "Specifier" });
  await assert.rejects(modinfo.analyzeEstree(tree, "\ud800", "file:///a.ts", "TypeScript"), { fault: "Input" });
  await refused("", { fault: "Tree" }, ["file:///a.ts", "TypeScripts"]);
  assert.deepEqual(await modinfo.moduleInfo("<a>{import('b')}</a>", "file:///a.ts", "Tsx"), {
    dependencies: [{ argument: "b", argumentRange: [[0, 11], [0, 14]], type: "dynamic" }], script: true,
  });
  await modinfo.close();
});

/** @param {string} script an ES module, in which `INDEX` is the package's */
function outputOf(script, words = ["--input-type=module"]) {
  const index = new URL(words.length > 0 ? "../modinfo-graph/dist/index.js" : "../modinfo-graph/dist/index.cjs", import.meta.url);
  const { stdout, stderr, status } = spawnSync(process.execPath, words, {
    input: script.replace("INDEX", JSON.stringify(words.length > 0 ? index.href : fileURLToPath(index))),
    env: { ...process.env, MODINFO_WASM: MODULE },
  });
  assert.deepEqual([String(stderr), status], ["", 0]);
  return String(stdout);
}

test("node ends while there is nothing to do", { skip: isMissing }, () => {
  assert.equal(outputOf(`
    import { Modinfo, moduleInfo } from INDEX;
    const modinfo = new Modinfo({ jobs: 2 });
    const info = await modinfo.moduleInfo("import './a.js'", "file:///b.js");
    console.log(info.dependencies[0].specifier, await moduleInfo("", "file:///b.js"));`), "./a.js { script: true }\n");
});

test("by require it is the same", { skip: isMissing }, () => {
  assert.equal(outputOf(`
    const { Modinfo, ModinfoFault, ProgramEnd, moduleInfo } = require(INDEX);
    const modinfo = new Modinfo();
    modinfo.moduleInfo("import './a.js'", "file:///b.js").then(async (info) => {
      console.log(info.dependencies[0].specifier, await moduleInfo("", "file:///b.js"));
      await moduleInfo("(", "file:///b.js").catch((error) => console.log(error instanceof ModinfoFault, error.fault));
      await modinfo.close();
      await modinfo.reach("{}").catch((error) => console.log(error instanceof ProgramEnd));
      await new Modinfo({ program: 1 }).reach("{}").catch(({ name }) => console.log(name));
    });`, []), "./a.js { script: true }\ntrue Syntax\ntrue\nTypeError\n");
});

/** @type {[command: "analyze" | "check" | "convert" | "reach", document: any, answer: unknown][]} */
const AT_THE_CALL = [
  ["analyze", numbered(1).document, numbered(1).info], ["check", numbered(1).document, { valid: true }],
  ["convert", { a: 1 }, { a: 1 }], ["reach", { root: "a", modules: {} }, []],
];

/** @type {[string, typeof Modinfo][]} */
const CLASSES = [["import", Modinfo], ["require", createRequire(import.meta.url)("../modinfo-graph/dist/index.cjs").Modinfo]];
for (const [name, Class] of CLASSES) {
  test(`documents are read at the call, by ${name}`, { skip: isMissing }, async () => {
    const modinfo = new Class();
    for (const [command, document, answer] of AT_THE_CALL) {
      const [bytes, object] = [Buffer.from(JSON.stringify(document)), structuredClone(document)];
      const answers = [modinfo[command](bytes), modinfo[command](object)];
      bytes.fill(" ");
      Object.keys(object).forEach((member) => delete object[member]);
      assert.deepEqual(await Promise.all(answers), [answer, answer], command);
    }
    await assert.rejects(modinfo.analyze(unchecked(undefined)), { name: "TypeError", message: /not undefined$/ });
    await assert.rejects(modinfo.convert({ a: 1n }), { name: "TypeError" });
    await modinfo.close();
  });
}

test("the plain function", { skip: isMissing }, async () => {
  assert.deepEqual(await moduleInfo(numbered(1).document.source, "file:///a.js"), numbered(1).info);
  await assert.rejects(moduleInfo("(", "file:///a.js"), { name: "ModinfoFault", fault: "Syntax", line: 1, column: 2 });
});

test("the faults of modinfo", { skip: isMissing }, async () => {
  const modinfo = new Modinfo();
  const { document } = numbered(0);
  const [comment] = [{ kind: "line", range: [0, 2], text: "" }];
  /** @type {[command: "analyze" | "convert" | "reach", document: any, fault: string][]} */
  const faults = [
    ["analyze", "{", "Json"], ["analyze", '{"a":"\n"}', "Json"], ["analyze", "", "Json"],
    ["analyze", Buffer.of(0x22, 0xff, 0x22), "Input"], ["analyze", '"\ud800"', "Input"],
    ["analyze", {}, "Tree"], ["analyze", null, "Tree"], ["analyze", { ...document, mediaType: "js" }, "Tree"],
    ["analyze", { ...document, specifier: "./a.js" }, "Specifier"],
    ["analyze", { ...document, source: "" }, "RangeOutside"],
    ["analyze", { ...document, program: { range: [1, 0], body: [] } }, "RangeReversed"],
    ["analyze", { ...document, source: "é", program: { range: [1, 2], body: [] } }, "RangeOffBoundary"],
    ["analyze", { ...document, leading: [{ pos: 0, comments: [comment] }] }, "CommentText"],
    ["convert", { a: 0.5 }, "Float"], ["reach", {}, "Shape"], ["reach", { root: "a", modules: [] }, "Shape"],
  ];
  for (const [command, wrong, fault] of faults) {
    await assert.rejects(modinfo[command](wrong), (error) => {
      assert.ok(error instanceof ModinfoFault);
      assert.equal(error.fault, fault);
      return true;
    });
  }
  await modinfo.close();
});

test("a conversion", { skip: isMissing }, async () => {
  assert.deepEqual(await convert(readExample("stored.convert.json")), readExample("stored.converted.json"));
  assert.deepEqual(await convert([1]), [1]);
});

test("a program that isn't there is an error of what runs it", async () => {
  const modinfo = new Modinfo({ program: "/none/modinfo" });
  await assert.rejects(modinfo.graph({ paths: ["."] }), { name: "ProgramEnd", message: /^\/none\/modinfo doesn't run .* ENOENT / });
  await modinfo.close();
});

test("what is no document, no text or no option", async () => {
  const modinfo = new Modinfo();
  /**
   * @param {Promise<unknown>} call
   * @param {string | RegExp} message
   */
  const refused = (call, message) => assert.rejects(call, { name: "TypeError", message });
  await refused(modinfo.analyze(unchecked(undefined)), "a document must be an object or its JSON, not undefined");
  await refused(modinfo.reach(unchecked(() => {})), /^a document must be an object or its JSON, not /);
  /** @type {Record<string, unknown>} */
  const circle = {};
  circle.circle = circle;
  await refused(modinfo.convert(circle), /circular/);
  await refused(modinfo.moduleInfo(unchecked(1), "file:///a.js"), "the text must be a string, not 1");
  await refused(modinfo.moduleInfo("", unchecked({})), "specifier must be an absolute URL, not [object Object]");
  const message = "mediaType must be a string, not [object Object]: options follow it";
  await refused(modinfo.moduleInfo("", "file:///a.js", unchecked({ signal: undefined })), message);
  await refused(modinfo.checkSource("", "file:///a.js", unchecked({})), message);
  await modinfo.close();
  for (const options of [
    { program: "" }, { program: 1 }, { jobs: 0 }, { jobs: 1.5 }, { jobs: "2" }, { jobs: Infinity },
  ]) {
    assert.throws(() => new Modinfo(unchecked(options)), { name: "TypeError", message: /^(program|jobs) must be / });
  }
});

test("disposing of it closes it", async () => {
  const modinfo = new Modinfo();
  const answer = modinfo.analyze(numbered(1).document);
  await modinfo[Symbol.asyncDispose]();
  assert.deepEqual(await answer, numbered(1).info);
  await assert.rejects(modinfo.analyze(numbered(1).document), ProgramEnd);
});

/**
 * The fault of an error that has no report.
 * @param {unknown} error
 */
function faultOf(error) {
  return error instanceof ModinfoFault && !("report" in error) ? error.fault : undefined;
}

test("a fault has its report where the call asks for it", { skip: isMissing }, async () => {
  const report = { fault: "Tree", pointer: "", expected: "a member `specifier`" };
  const message = "Tree at the whole document: expected a member `specifier`";
  await assert.rejects(analyze("{}", { report: true }), { name: "ModinfoFault", fault: "Tree", message, report });
  await assert.rejects(analyze("{}"), (error) => {
    return faultOf(error) === "Tree" && /^ModinfoFault: Tree: .+ report .+/.test(String(error));
  });
  assert.deepEqual(await analyze(numbered(1).document, { report: true }), numbered(1).info);
});

test("the reports of modinfo itself", { skip: isMissing }, async () => {
  /**
   * @param {unknown} document
   * @param {string} message
   */
  const refused = (document, message) => assert.rejects(analyze(unchecked(document), { report: true }), { message });
  await refused("{", "Json at line 1, column 2: expected one JSON value, at most 127 deep");
  await refused({}, "Tree at the whole document: expected a member `specifier`");
  await refused(
    { specifier: "a:b", mediaType: "JavaScript", source: "", program: { range: [0, 1], body: [] } },
    "RangeOutside at /program/range: expected an end of at most 0, the source's length",
  );
  await assert.rejects(reach("{}", { report: true }), { fault: "Shape" });
  await assert.rejects(convert("[0.5]", { report: true }), { fault: "Float" });
});
