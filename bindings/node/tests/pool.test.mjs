/** Processes of the program, and the requests that they are handed. */

import assert from "node:assert/strict";
import { spawnSync } from "node:child_process";
import { EventEmitter, once } from "node:events";
import { chmodSync, existsSync, readFileSync } from "node:fs";
import { join } from "node:path";
import { test } from "node:test";

import { ModinfoFault, ProgramEnd } from "../modinfo/dist/index.js";
import { documentCommand, lineOf } from "./equipment/document_command.mjs";
import { inOrder } from "../modinfo-graph/dist/runtime/in_order.js";
import { Pool, processesOf } from "../modinfo-graph/dist/runtime/pool.js";
import { all, settled } from "./promises.mjs";
import { MODINFO, folderOf } from "./run_commands.mjs";

/** @param {string} name */
const document = (name) => JSON.stringify({
  specifier: "file:///a.js", mediaType: "JavaScript", source: `import "${name}";`,
  program: {
    range: [0, name.length + 10],
    body: [{
      kind: "ImportDecl", range: [0, name.length + 10],
      src: { value: name, range: [7, name.length + 9] },
    }],
  },
});

/** A pool of processes of one command, whose requests are documents. */
class Service {
  #pool;

  /**
   * @param {string} program
   * @param {number} [jobs]
   */
  constructor(program, jobs = 1) {
    this.#pool = new Pool(processesOf(documentCommand(program, "analyze")), jobs);
  }

  /**
   * @param {string | Uint8Array} document
   * @returns {Promise<any>}
   */
  answer(document) {
    return this.#pool.run(lineOf(document));
  }

  kill() {
    this.#pool.kill();
  }
}

/** @param {unknown} answer JSON, also as bytes */
const specifierOf = (answer) => JSON.parse(String(answer)).dependencies[0].specifier;

/**
 * A program in JavaScript that stands in for `modinfo`. In it `lines` are those of the input, and
 * `starts` is how often it was started before.
 * @param {string} body
 */
function programOf(body) {
  const folder = folderOf();
  const path = join(folder, "modinfo.mjs");
  const files = folderOf({
    "modinfo.mjs": `#!${process.execPath}
import { appendFileSync, existsSync, readFileSync } from "node:fs";
import { createInterface } from "node:readline";
const log = ${JSON.stringify(path)};
const starts = existsSync(log) ? readFileSync(log, "utf8").length : 0;
appendFileSync(log, ".");
const lines = createInterface({ input: process.stdin, crlfDelay: Infinity });
${body}`,
  });
  chmodSync(join(files, "modinfo.mjs"), 0o755);
  return {
    program: join(files, "modinfo.mjs"),
    starts: () => (existsSync(path) ? readFileSync(path, "utf8").length : 0),
  };
}

/**
 * What became of some promises: answers, or the names of their errors.
 * @param {Promise<unknown>[]} promises
 */
async function outcomes(promises) {
  const found = await settled(promises);
  return found.map(({ value, reason }) => (reason ? reason.name : String(value)));
}

test("each of many documents gets its answer", async () => {
  const service = new Service(MODINFO);
  const names = Array.from({ length: 2000 }, (_, at) => `./${at}${"x".repeat(at % 700)}.js`);
  const answers = await Promise.all(names.map((name) => service.answer(document(name))));
  assert.deepEqual(answers.map(specifierOf), names);
  service.kill();
});

test("a document is text or bytes, and may have line feeds", async () => {
  const service = new Service(MODINFO);
  const text = JSON.stringify(JSON.parse(document("./é.js")), undefined, 2);
  for (const each of [text, Buffer.from(text)]) {
    const before = each.toString();
    assert.equal(specifierOf(await service.answer(each)), "./é.js");
    assert.equal(each.toString(), before);
  }
  service.kill();
});

test("a fault rejects its own document alone", async () => {
  const service = new Service(MODINFO);
  const [first, wrong, last] = await settled(
    [document("a"), "{", document("b")].map((each) => service.answer(each)),
  );
  assert.equal(specifierOf(first.value), "a");
  assert.ok(wrong.reason instanceof ModinfoFault);
  assert.equal(wrong.reason.fault, "Json");
  assert.equal(specifierOf(last.value), "b");
  service.kill();
});

test("answers may come in pieces of any length", async () => {
  const { program } = programOf(`
    for await (const line of lines) {
      for (const byte of Buffer.from('{"answer":' + line + '}\\n')) {
        await new Promise((resolve) => process.stdout.write(Buffer.of(byte), resolve));
      }
    }`);
  const service = new Service(program);
  const documents = ['"é"', '"日本"', "{}", '""'];
  assert.deepEqual(await outcomes(documents.map((each) => service.answer(each))), documents);
  service.kill();
});

/** Ends with status 1 over each document that begins with `"end`. */
const ENDING = `
  for await (const line of lines) {
    if (line.startsWith('"end')) {
      console.error("modinfo: Output");
      process.exit(1);
    }
    console.log('{"answer":' + line + "}");
  }`;

test("a document over which the process ends twice is the only one that is rejected", async () => {
  for (const jobs of [1, 3]) {
    const { program } = programOf(ENDING);
    const service = new Service(program, jobs);
    const documents = ["1", "2", '"end"', "4", '"end"', "6"];
    const found = await outcomes(documents.map((each) => service.answer(each)));
    assert.deepEqual(found, ["1", "2", "ProgramEnd", "4", "ProgramEnd", "6"]);
    const [ended] = await settled([service.answer('"end"')]);
    assert.ok(ended.reason instanceof ProgramEnd);
    assert.match(ended.reason.message, /modinfo\.mjs ended with status 1: modinfo: Output$/);
    assert.deepEqual(await outcomes([service.answer('"b"')]), ['"b"']);
    service.kill();
  }
});

test("where the process is killed, what it held goes to another one", async () => {
  const { program, starts } = programOf(`
    let answered = 0;
    for await (const line of lines) {
      if (starts === 0 && answered++ === 500) {
        process.kill(process.pid, "SIGKILL");
        await new Promise(() => {});
      }
      console.log('{"answer":' + line + "}");
    }`);
  const service = new Service(program);
  const numbers = Array.from({ length: 3000 }, (_, at) => String(at));
  assert.deepEqual(await outcomes(numbers.map((each) => service.answer(each))), numbers);
  assert.equal(starts(), 2);
  service.kill();
});

test("requests to a process that reads no more print no warning", async () => {
  const program = join(folderOf({ modinfo: "#!/bin/sh\nexec sleep 2 0<&-\n" }), "modinfo");
  chmodSync(program, 0o755);
  const service = new Service(program);
  /** @type {string[]} */
  const warnings = [];
  const onWarning = (/** @type {Error} */ { message }) => warnings.push(message);
  process.on("warning", onWarning);
  const held = [];
  for (let count = 0; count < 60; count++) {
    held.push(outcomes([service.answer("1")]));
    await new Promise((resolve) => setTimeout(resolve, 20));
  }
  service.kill();
  assert.deepEqual((await Promise.all(held)).flat(), Array(60).fill("ProgramEnd"));
  assert.deepEqual(warnings, []);
  process.off("warning", onWarning);
});

/** Has no answer to a document that begins with `"wait`. */
const WAITING = `
  for await (const line of lines) {
    if (!line.startsWith('"wait')) {
      console.log('{"answer":' + line + "}");
    }
  }`;

test("a small document doesn't wait for a large one", async () => {
  const service = new Service(programOf(WAITING).program, 2);
  const large = () => service.answer(`"wait${"x".repeat(1 << 17)}"`);
  const first = large();
  const numbers = Array.from({ length: 100 }, (_, at) => String(at));
  assert.deepEqual(await outcomes(numbers.map((each) => service.answer(each))), numbers);
  const held = [first, large(), service.answer("1")];
  service.kill();
  assert.deepEqual(await outcomes(held), Array(3).fill("ProgramEnd"));
});

test("a pool that is ended rejects what has no answer, and takes nothing more", async () => {
  const service = new Service(programOf(WAITING).program, 2);
  const held = ['"wait1"', '"wait2"', `"wait${"x".repeat(1 << 17)}"`].map((each) => service.answer(each));
  service.kill();
  assert.deepEqual(await outcomes([...held, service.answer("1")]), Array(4).fill("ProgramEnd"));
});

test("a program that can't be started is an error of each document", async () => {
  const service = new Service("/none/modinfo");
  const documents = [service.answer("1"), service.answer("2")];
  assert.deepEqual(await outcomes(documents), ["ProgramEnd", "ProgramEnd"]);
  await assert.rejects(service.answer("3"), /^ProgramEnd: \/none\/modinfo can't be started: spawn .*ENOENT/);
  service.kill();
});

test("a name that no program can have is an error of each document", async () => {
  const service = new Service("a\0b");
  assert.deepEqual(await outcomes([service.answer("1"), service.answer("2")]), ["ProgramEnd", "ProgramEnd"]);
  service.kill();
});

test("where no more files can be opened, each document is rejected", () => {
  const script = `
    import { openSync } from "node:fs";
    import { documentCommand } from ${JSON.stringify(new URL("./equipment/document_command.mjs", import.meta.url).href)};
    import { Pool } from ${JSON.stringify(new URL("../modinfo-graph/dist/runtime/pool.js", import.meta.url).href)};
    import { processesOf } from ${JSON.stringify(new URL("../modinfo-graph/dist/runtime/pool.js", import.meta.url).href)};
    try { for (;;) openSync("/dev/null"); } catch {}
    const service = new Pool(processesOf(documentCommand("cat", "analyze")), 2);
    const settled = await Promise.allSettled([service.run("1\\n"), service.run("2\\n")]);
    service.kill();
    settled.forEach(({ reason }) => process.stdout.write(reason + "\\n"));`;
  const line = 'ulimit -n 60; exec "$0" --input-type=module';
  const { stdout, stderr, status } = spawnSync("bash", ["-c", line, process.execPath], { input: script });
  assert.match(String(stdout), /^(ProgramEnd: cat can't be started: spawn cat EMFILE .*\n){2}$/);
  assert.deepEqual([String(stderr), status], ["", 0]);
});

test("after what is no answer nothing that the process prints is one", async () => {
  const { program, starts } = programOf(`
    for await (const line of lines) {
      console.log({ 1: "modinfo", 2: '{"fault":2}', 3: '{"answer":3}\\n{"answer":4}' }[line] ?? '{"answer":' + line + "}");
    }`);
  const service = new Service(program);
  for (const [wrong, printed] of [["1", "modinfo"], ["2", '{"fault":2}']]) {
    const [refused, ...others] = await settled([service.answer(wrong), service.answer("5"), service.answer("6")]);
    assert.equal(String(refused.reason), `ProgramEnd: ${program} printed an invalid answer: ${printed}`);
    assert.deepEqual(others.map(({ value }) => String(value)), ["5", "6"]);
  }
  assert.equal(String(await service.answer("3")), "3");
  assert.equal(String(await service.answer("5")), "5");
  assert.ok(starts() > 4);
  service.kill();
});

/** @param {number} end */
async function* numbersTo(end) {
  for (let at = 0; at < end; at++) {
    yield at;
  }
}

test("tasks are taken up only as results are", async () => {
  let [started, running, most] = [0, 0, 0];
  /** @param {number} task */
  const run = async (task) => {
    started++;
    most = Math.max(most, ++running);
    await new Promise(setImmediate);
    running--;
    return task;
  };
  const found = inOrder(numbersTo(1000), 10, run);
  for (let at = 0; at < 5; at++) {
    assert.equal((await found.next()).value, at);
  }
  for (let turn = 0; turn < 50; turn++) {
    await new Promise(setImmediate);
  }
  assert.ok(started <= 15);
  assert.deepEqual(await all(found), (await all(numbersTo(1000))).slice(5));
  assert.ok(most <= 10);
});

test("a result may be there at once, and the end is told after the last one and after an error", async () => {
  let ends = 0;
  const end = () => ends++;
  assert.deepEqual(await all(inOrder(numbersTo(5), 2, (task) => task, end)), [0, 1, 2, 3, 4]);
  assert.equal(ends, 1);
  const found = inOrder(numbersTo(5), 2, (task) => (task === 1 ? Promise.reject(new Error("wrong")) : task), end);
  assert.equal((await found.next()).value, 0);
  await assert.rejects(found.next(), /^Error: wrong$/);
  assert.equal(ends, 2);
});

test("a result doesn't wait for the next task", async () => {
  const later = new EventEmitter();
  const tasks = (async function* () {
    yield 1;
    await once(later, "next");
    yield 2;
  })();
  const found = inOrder(tasks, 10, async (task) => task);
  assert.equal((await found.next()).value, 1);
  later.emit("next");
  assert.deepEqual(await all(found), [2]);
});

