/** The packages as npm packs them, installed without a network in an empty folder. */

import assert from "node:assert/strict";
import { spawnSync } from "node:child_process";
import { createHash } from "node:crypto";
import {
  chmodSync, existsSync, mkdirSync, readFileSync, readdirSync, rmSync, symlinkSync, writeFileSync,
} from "node:fs";
import { basename, delimiter, dirname, join } from "node:path";
import { before, describe, test } from "node:test";
import { fileURLToPath, pathToFileURL } from "node:url";

import { MODINFO, MODULE, folderOf, linesOf, urlOf } from "./run_commands.mjs";
import { compile, parserFolder } from "./compile.mjs";

/** @typedef {import("./run_commands.mjs").RunOptions} RunOptions */

const HERE = fileURLToPath(new URL("..", import.meta.url));
const PACKAGES = ["modinfo", "modinfo-graph", "modinfo-report"];
const TEXT = `import { b } from "./b.ts";\n`;
const INFO = {
  dependencies: [{
    kind: "import", specifier: "./b.ts", specifierRange: [[0, 18], [0, 26]], type: "static",
  }],
};

/** @param {string} path in the folder of the packages */
const read = (path) => readFileSync(new URL(`../${path}`, import.meta.url), "utf8");
/** Runs the program for aarch64 on another processor, with its C library. */
const EMULATOR = "qemu-aarch64";
const AARCH64_SYSTEM = "/usr/aarch64-linux-gnu";
const AARCH64_PROGRAM = fileURLToPath(new URL("../../../build/aarch64/modinfo", import.meta.url));

const ROOT = fileURLToPath(new URL("../../..", import.meta.url));
/** Variables without a program and a module. */
const NOTHING = { MODINFO: "", MODINFO_WASM: "" };

const { error: noNpm } = spawnSync("npm", ["--version"]);

/**
 * Runs a program, which has to end with status 0 and no word on the error output.
 * @param {string} program
 * @param {string[]} words
 * @param {RunOptions} options
 * @param {NodeJS.ProcessEnv} [variables]
 */
function outputOf(program, words, { cwd, input, modinfo = MODINFO }, variables = {}) {
  const env = { ...process.env, MODINFO: modinfo, ...variables };
  const { stdout, stderr, status, error } = spawnSync(program, words, { cwd, input, env });
  assert.deepEqual([error, String(stderr), status], [undefined, "", 0], `${program} ${words.join(" ")}`);
  return String(stdout);
}

/**
 * Runs npm without a network, and with a cache of its own.
 * @param {string[]} words
 * @param {string} cwd
 */
function npm(words, cwd) {
  const silent = ["--silent", "--no-audit", "--no-fund", "--offline"];
  return outputOf("npm", [...words, ...silent], { cwd }, { npm_config_cache: join(cwd, "cache") });
}

/**
 * The files in a folder of the package and all below it.
 * @param {string} root
 * @param {string} folder
 * @returns {string[]} paths from the root
 */
function filesBelow(root, folder) {
  return readdirSync(join(root, folder), { withFileTypes: true }).flatMap((entry) => {
    const path = join(folder, entry.name);
    return entry.isDirectory() ? filesBelow(root, path) : [path];
  });
}

/**
 * The blocks of a language in the page of a package.
 * @param {string} language
 * @param {string} [name]
 */
function blocks(language, name = "modinfo") {
  const found = read(`${name}/README.md`).matchAll(new RegExp(`^\`\`\`${language}\n(.*?)^\`\`\`$`, "gms"));
  return [...found].map(([, text]) => text);
}

/**
 * The first block of a language in the page of `modinfo`.
 * @param {string} language
 */
function block(language) {
  return blocks(language)[0];
}

/**
 * Makes the packages with a program, and returns their paths: the three of code, and that of the program.
 * @param {string} program
 * @param {string} folder
 * @param {string[]} [words]
 * @param {NodeJS.ProcessEnv} [variables]
 */
function pack(program, folder, words = [], variables = {}) {
  const all = ["--module", MODULE, ...words, "--program", program, folder];
  const printed = outputOf(join(HERE, "pack"), all, { cwd: folder }, {
    npm_config_cache: join(folder, "cache"), ...variables,
  });
  return printed.trimEnd().split("\n");
}

/** A program that runs the second `modinfo`, and has the version of the package. */
function standInWithVersion() {
  const { version } = JSON.parse(read("modinfo/package.json"));
  return executable(`[ "$1" != --version ] || exec echo "modinfo ${version}"
exec "${MODINFO}" "$@"`);
}

/**
 * A script of the shell in a folder of its own.
 * @param {string} text
 * @param {string} [name]
 * @param {string} text
 */
function executable(text, name = "modinfo") {
  const path = join(folderOf(), name);
  writeFileSync(path, `#!/bin/sh\n${text}\n`);
  chmodSync(path, 0o755);
  return path;
}

test("their licence is the repository's, their version the program's and that of the program's packages", () => {
  const [{ license, version }, graph, report] = PACKAGES.map((name) => JSON.parse(read(`${name}/package.json`)));
  for (const own of [graph, report, JSON.parse(read("package.json"))]) {
    assert.deepEqual([own.version, own.license], [version, license]);
  }
  const names = ["linux-arm64", "linux-x64"];
  for (const name of names) {
    const { os, cpu, ...platform } = JSON.parse(read(`${name}/package.json`));
    assert.deepEqual([platform.version, platform.license], [version, license]);
    assert.deepEqual([platform.name, `${os}-${cpu}`], [`modinfo-${name}`, name]);
  }
  assert.deepEqual(graph.optionalDependencies, Object.fromEntries(names.map((name) => [`modinfo-${name}`, version])));
  assert.deepEqual([graph.dependencies, report.dependencies], [{ modinfo: version }, { "modinfo-graph": version }]);
  assert.equal(read("LICENSE"), read("../../LICENSE"));
  assert.match(read("LICENSE"), new RegExp(`^${license} License\n`));
  assert.ok(read("../../crates/modinfo/src/help.rt").includes(`"modinfo ${version}\\n"`));
});

describe("the packages", { skip: noNpm && "npm isn't there" }, () => {
  const folder = folderOf();
  /** @type {string[]} Of the packages of code. */
  let packed;

  before(() => {
    packed = pack(standInWithVersion(), folder).slice(0, PACKAGES.length);
    npm(["install", ...packed, "--omit=optional"], folder);
  });

  /**
   * @param {string} script
   * @param {RunOptions} [options]
   */
  const node = (script, options) => {
    return outputOf(process.execPath, ["--input-type=module"], { cwd: folder, input: script, ...options });
  };

  /** What a package has besides its modules. */
  const OTHERS = {
    modinfo: ["dist/module.js", ...["ADAPTERS", "ESTREE", "FORMATS", "PROVED"].map((name) => `docs/${name}.md`)],
    "modinfo-graph": ["docs/FORMATS.md"],
    "modinfo-report": [
      "docs/SECURITY.md", "report.png", "style.css",
      ...["dagre", "d3-hierarchy"].flatMap((name) => [`vendor/${name}.copyright`, `vendor/${name}.min.js`]),
    ],
  };

  for (const [at, [name, others]] of Object.entries(OTHERS).entries()) {
    test(`${name} has its modules with their types, a page and a licence, and no tests`, () => {
      const modules = filesBelow(join(HERE, name), "src").filter((path) => /\.c?ts$/.test(path)).flatMap((path) => {
        const [, base, kind] = /^src\/(.*)\.(c?)ts$/.exec(path) ?? [];
        return [`dist/${base}.${kind}js`, `dist/${base}.d.${kind}ts`];
      });
      const expected = ["COPYRIGHT", "LICENSE", "README.md", "package.json", ...modules, ...others];
      const names = outputOf("tar", ["-tzf", packed[at]], { cwd: folder }).trimEnd().split("\n");
      assert.deepEqual(names.map((each) => each.replace(/^package\//, "")).sort(), expected.sort());
    });

    test(`the links of the pages of ${name} lead to what it has`, () => {
      const root = join(folder, "node_modules", name);
      const pages = filesBelow(root, "").filter((path) => path.endsWith(".md"));
      for (const page of pages) {
        for (const [, path] of readFileSync(join(root, page), "utf8").matchAll(/\]\((?!\w+:)([^)#\s]+)/g)) {
          assert.ok(existsSync(join(root, dirname(page), path)), `${page} links ${path}`);
        }
      }
    });
  }

  test("the module is that of the build", () => {
    for (const load of [`await import("modinfo")`, `await import("modinfo/inline")`, `require("modinfo")`]) {
      const script = `(async () => require("fs").writeFileSync("copy.wasm", (${load}).moduleBytes()))();`;
      outputOf(process.execPath, ["--eval", script], { cwd: folder }, NOTHING);
      assert.deepEqual(readFileSync(join(folder, "copy.wasm")), readFileSync(MODULE), load);
    }
  });

  test("modinfo-report draws where Debian's dagre and d3-hierarchy aren't there", async () => {
    const root = join(folder, "node_modules/modinfo-report");
    const { readLibraries } = await import(pathToFileURL(join(root, "dist/libraries.js")).href);
    const libraries = readLibraries([join(root, "vendor"), folderOf()]);
    assert.deepEqual(libraries.map((/** @type {any} */ { fault }) => fault), [undefined, undefined]);
    const files = folderOf({ "src/a.ts": TEXT, "src/b.ts": "" });
    const words = ["--offline", "--no", "--", "modinfo-report", "-o", join(files, "page.html"), join(files, "src")];
    assert.equal(outputOf("npx", words, { cwd: folder }, { npm_config_cache: join(folder, "cache"), ...NOTHING }), "");
    const page = readFileSync(join(files, "page.html"), "utf8");
    libraries.forEach((/** @type {any} */ { text }) => assert.ok(page.includes(text.slice(0, 60))));
    assert.ok(page.includes('"absent":{}'));
  });

  test("the program of the page prints what it says", () => {
    assert.equal(node(block("js")), block("text"));
  });

  test("the other programs of the pages run", { skip: !parserFolder("acorn") && "there is no acorn" }, () => {
    const files = folderOf({
      "package.json": JSON.stringify({ main: "src/main.ts" }),
      "src/main.ts": TEXT, "src/b.ts": "", "src/b.test.ts": "", "src/c.js": "",
    });
    symlinkSync(join(folder, "node_modules"), join(files, "node_modules"));
    const [, ofTree, ofReport, ...others] = blocks("js");
    const [ofGraph, ...more] = blocks("js", "modinfo-graph");
    assert.deepEqual([...others, ...more], []);
    const setUp = `import { analyzeEstree, check } from "modinfo";`;
    const tree = outputOf(process.execPath, ["--input-type=module"], { cwd: files, input: `${setUp}
      import { createRequire } from "node:module";
      const acorn = createRequire(import.meta.url)(${JSON.stringify(parserFolder("acorn"))});
      const [text, specifier] = [${JSON.stringify(TEXT)}, "file:///a.js"];
      ${ofTree}
      console.log(JSON.stringify(info));` });
    assert.deepEqual(JSON.parse(tree), INFO);
    const source = `${"a;".repeat(28)}b`;
    const body = [[0, 2], [2, 4], [4, 6], [6, 99]].map((range) => ({ kind: "Other", range }));
    const document = { specifier: "file:///a.js", mediaType: "JavaScript", source, program: { range: [0, 57], body } };
    const report = node(`${setUp} const document = ${JSON.stringify(document)}; ${ofReport}`);
    assert.equal(report, blocks("text")[1]);
    const graph = outputOf(process.execPath, ["--input-type=module"], { cwd: files, input: ofGraph });
    const [main, b, c] = ["src/main.ts", "src/b.ts", "src/c.js"].map((path) => urlOf(files, path));
    const answers = `[ '${c}' ] { cycles: [], typeCycles: [] } [] [] []\n`;
    assert.equal(graph, `${answers}${b} undefined []\n${c} undefined []\n${main} undefined [ '${b}' ]\n`);
  });

  test("are imported and required by their names", () => {
    const script = (/** @type {string} */ load) => `
      (async () => {
        const { Modinfo, ModinfoFault, ProgramEnd, moduleInfo } = ${load};
        const [text, specifier] = [${JSON.stringify(TEXT)}, "file:///a.js"];
        const modinfo = new Modinfo({ program: process.env.MODINFO, jobs: 2 });
        console.log(JSON.stringify([await modinfo.moduleInfo(text, specifier), await moduleInfo(text, specifier)]));
        await modinfo.analyze("{").catch((error) => console.log(error instanceof ModinfoFault, error.fault));
        await modinfo.close();
        await modinfo.analyze("{}").catch((error) => console.log(error instanceof ProgramEnd));
        await import("modinfo-graph/dist/runtime/pool.js").catch(({ code }) => console.log(code));
      })();`;
    for (const [load, words] of /** @type {[string, string[]][]} */ ([[`await import("modinfo-graph")`, ["--input-type=module"]], [`require("modinfo-graph")`, []]])) {
      const [infos, ...others] = outputOf(process.execPath, words, { cwd: folder, input: script(load) }).split("\n");
      assert.deepEqual(JSON.parse(infos), [INFO, INFO]);
      assert.deepEqual(others, ["true Json", "true", "ERR_PACKAGE_PATH_NOT_EXPORTED", ""]);
    }
  });

  // Debian's plugin node-resolve, where it is there; else one that knows a single name.
  const RESOLVE = "/usr/share/nodejs/@rollup/plugin-node-resolve/dist/es/index.js";
  const PLUGIN = existsSync(RESOLVE)
    ? `(await import("${RESOLVE}")).nodeResolve()`
    : `{ resolveId: (name) => (name === "modinfo/inline" ? "${join(folder, "node_modules/modinfo/dist/inline.js")}" : null) }`;
  const FORMATS = ["esm", "cjs", "iife"];
  /** @type {Record<string, string[][]>} */
  const bundlers = {
    esbuild: FORMATS.map((format) => ["main.mjs", "--bundle", "--log-level=error", `--format=${format}`, `--outfile=${format}.js`]),
    rollup: [["--config", "rollup.config.mjs", "--silent"]],
  };
  const ROLLUP = `export default {
      input: "main.mjs", plugins: [${PLUGIN}],
      output: ${JSON.stringify(FORMATS.map((format) => ({ file: `${format}.js`, format })))},
    };`;

  for (const [bundler, runs] of Object.entries(bundlers)) {
    const skip = spawnSync(bundler, ["--version"]).error && `${bundler} isn't there`;

    test(`a bundle of ${bundler} has the module in it`, { skip }, () => {
      const bundles = folderOf({
        "main.mjs": `import { initSync, moduleInfo, moduleInfoSync } from "modinfo/inline";
          moduleInfo('import "a";', "file:///a.js").then((info) => {
            initSync();
            console.log(info.dependencies[0].specifier, moduleInfoSync("", "file:///a.js"));
          });`,
        "rollup.config.mjs": ROLLUP,
      });
      symlinkSync(join(folder, "node_modules"), join(bundles, "node_modules"));
      runs.forEach((words) => outputOf(bundler, words, { cwd: bundles }));
      for (const format of FORMATS) {
        const name = format === "esm" ? "bundle.mjs" : "bundle.cjs";
        const alone = folderOf({ [name]: readFileSync(join(bundles, `${format}.js`)) });
        assert.equal(outputOf(process.execPath, [name], { cwd: alone }, NOTHING), "a { script: true }\n", format);
      }
    });
  }

  const noEsbuild = spawnSync("esbuild", ["--version"]).error && "esbuild isn't there";
  test("a bundle without the module says what to do", { skip: noEsbuild }, () => {
    const bundles = folderOf({
      "main.mjs": `import { moduleInfo } from "modinfo";
        moduleInfo("", "file:///a.js").then(console.log, ({ message }) => console.log(message));`,
    });
    symlinkSync(join(folder, "node_modules"), join(bundles, "node_modules"));
    const words = ["main.mjs", "--bundle", "--platform=node", "--format=esm", "--outfile=bundle.mjs", "--log-level=error"];
    outputOf("esbuild", words, { cwd: bundles });
    const alone = folderOf({ "bundle.mjs": readFileSync(join(bundles, "bundle.mjs")) });
    const run = (/** @type {NodeJS.ProcessEnv} */ variables) => outputOf(process.execPath, ["bundle.mjs"], { cwd: alone }, variables);
    const remedy = "copy it from the package, or import modinfo/inline, or set MODINFO_WASM";
    assert.match(run(NOTHING), new RegExp(`^.*/module\\.js not found: ${remedy}\\n$`));
    assert.equal(run({ ...NOTHING, MODINFO_WASM: MODULE }), "{ script: true }\n");
    writeFileSync(join(alone, "module.js"), readFileSync(join(folder, "node_modules/modinfo/dist/module.js")));
    assert.equal(run(NOTHING), "{ script: true }\n");
  });

  test("without the program WebAssembly runs, and prints the same", () => {
    // Another program of the name on the PATH isn't run.
    const other = executable("echo called >&2; exit 1");
    const variables = { ...NOTHING, PATH: [dirname(other), process.env.PATH].join(delimiter) };
    const command = join(folder, "node_modules/.bin/modinfo-files");
    const runs = [
      ["--cycles", "examples/project/src"], ["--missing", "examples/project/src"], ["examples"],
      ["--entry", "examples/project/src/main.ts", "--unreached", "examples/project/src"],
      ["--json", "bindings/node/modinfo-graph/src"], ["crates/test_replay/data", "bindings/node/tests"],
    ];
    for (const words of runs) {
      const [native, own] = [{ MODINFO }, variables].map((env) => {
        const { stdout, stderr, status } = spawnSync(command, words, { cwd: ROOT, env: { ...process.env, ...env } });
        return [String(stdout), String(stderr), status];
      });
      assert.deepEqual(own, native, words.join(" "));
    }
    const version = spawnSync(command, ["--version"], { cwd: folder, env: { ...process.env, ...variables } });
    assert.match(String(version.stdout), /\(WebAssembly: .*\/node_modules\/modinfo\/dist\/module\.js\)\n$/);
  });

  test("the programs run by npx and by their links", () => {
    const files = folderOf({ "src/a.ts": TEXT, "src/c.js": "" });
    const expected = ["a.ts", "c.js"].map((name) => ({
      specifier: pathToFileURL(join(files, "src", name)).href,
      info: name === "a.ts" ? INFO : { script: true },
    }));
    const npx = ["--offline", "--no", "--", "modinfo-files", join(files, "src")];
    const cache = { npm_config_cache: join(folder, "cache") };
    assert.deepEqual(linesOf(outputOf("npx", npx, { cwd: folder }, cache)), expected);
    /** @param {string} name */
    const link = (name) => join(folder, "node_modules/.bin", name);
    assert.deepEqual(linesOf(outputOf(link("modinfo-files"), ["src"], { cwd: files })), expected);
    assert.match(outputOf(link("modinfo-files"), ["--version"], { cwd: files }), /^modinfo-files \d\S+ \(native: /);
  });

  test("the commands of the page of modinfo-graph answer in a project", () => {
    const files = folderOf({
      "src/main.ts": `import "./b.js";\nimport "none";\n`, "src/b.ts": `import "./c.js";\n`,
      "src/c.js": `import "./b.js";\n`, "src/lonely.js": "", "package.json": JSON.stringify({ main: "src/main.ts" }),
    });
    const expected = {
      "--entry .": "src/main.ts\nsrc/b.ts\nsrc/c.js\n",
      "--entry src/main.ts --unreached src": "src/lonely.js\n",
      "--cycles src": "src/b.ts -> src/c.js -> src/b.ts\n",
      "--missing src": "src/main.ts:2:8: none: the package none isn't installed\n",
      "--packages .": /^src\/main\.ts:2:8: none: [^\n]*package\.json[^\n]*\n$/,
      "--forbid src/ui:src/db src": "",
      "--cycles --missing src": /^cycles: 1\n {2}src\/b\.ts -> [^]*\nmissing: 1\n {2}src\/main\.ts:2:8: none: /,
      "--entry src/main.ts --why src/c.js":
        "src/main.ts\nsrc/b.ts (./b.js at src/main.ts:1:8)\nsrc/c.js (./c.js at src/b.ts:1:8)\n",
      "--dependents src/c.js src": "src/b.ts\n",
      "--dot src": /^digraph modules \{\n/,
    };
    const table = read("modinfo-graph/README.md").match(/^\| `modinfo-files --[^`]*`/gm)?.map((line) => line.slice(17, -1));
    assert.deepEqual(table, Object.keys(expected));
    const program = join(folder, "node_modules/.bin/modinfo-files");
    for (const [words, printed] of Object.entries(expected)) {
      const env = { ...process.env, MODINFO };
      const { stdout, status } = spawnSync(program, words.split(" "), { cwd: files, env, encoding: "utf8" });
      const isFinding = /--(?:cycles|unreached|missing|packages)/.test(words);
      assert.equal(status, isFinding ? 1 : 0, words);
      if (typeof printed === "string") {
        assert.equal(stdout, printed);
      } else {
        assert.match(stdout, printed);
      }
    }
  });

  test("the types are those of callers", { skip: !parserFolder("typescript") && "there is no TypeScript" }, () => {
    mkdirSync(join(folder, "src"));
    const plain = { lib: ["es2022"] };
    assert.equal(compile(folder, { "src/caller.mts": read("tests/types/caller.mts") }, plain), "");
    assert.equal(compile(folder, { "src/caller.cts": read("tests/types/caller.cts") }, plain), "");
    assert.equal(compile(folder, { "src/wrong.mts": read("tests/types/wrong.mts") }), "");
    const older = { module: "es2022", moduleResolution: "node" };
    assert.equal(compile(folder, { "src/older.ts": read("tests/types/wrong.mts") }, older), "");
    const unused = read("tests/types/wrong.mts").replace(/@ts-expect-error/g, "");
    assert.match(compile(folder, { "src/refused.mts": unused }), /error TS/);
  });
});

describe("the packages and that of the program", { skip: noNpm && "npm isn't there" }, () => {
  test("the program is the one that is installed, whatever else there is", () => {
    const folder = folderOf();
    npm(["install", ...pack(standInWithVersion(), folder)], folder);
    const other = executable("echo called >&2; exit 1");
    const path = [dirname(other), process.env.PATH].join(delimiter);
    const output = (/** @type {string} */ input) => {
      return outputOf(process.execPath, ["--input-type=module"], { cwd: folder, input, modinfo: other }, { PATH: path });
    };
    assert.equal(output(block("js")), block("text"));
    const program = `import { Modinfo } from "modinfo-graph";
      const modinfo = new Modinfo();
      console.log((await modinfo.graph({ paths: ["a.js"] })).modules.length);`;
    writeFileSync(join(folder, "a.js"), "");
    assert.equal(output(program), "1\n");
    const named = program.replace("new Modinfo()", `new Modinfo({ program: ${JSON.stringify(MODINFO)} })`);
    assert.equal(output(named), "1\n");
  });

  describe("of the tested program", { skip: !existsSync(MODINFO) && "build/modinfo isn't made" }, () => {
    const folder = folderOf({ "src/a.ts": TEXT });

    before(() => npm(["install", ...pack(MODINFO, folder)], folder));

    test("in an empty folder the page's example runs", () => {
      const { MODINFO: _, ...env } = process.env;
      /**
       * @param {string} program
       * @param {string[]} words
       * @param {string} input
       */
      const run = (program, words, input) => spawnSync(program, words, { cwd: folder, env, input });
      const { stdout, stderr } = run(process.execPath, ["--input-type=module"], block("js"));
      assert.deepEqual([String(stderr), String(stdout)], ["", block("text")]);
      const files = run(join(folder, "node_modules/.bin/modinfo-files"), ["src"], "");
      assert.deepEqual(linesOf(String(files.stdout)).map(({ info }) => info), [INFO]);
    });

    const notStamped = !existsSync(`${MODINFO}.origin`) && `${MODINFO} has no stamp`;

    test("the installed program has the stamp of the build, which is of its bytes", { skip: notStamped }, () => {
      const installed = join(folder, "node_modules/modinfo-linux-x64");
      const [kind, sources, file] = readFileSync(join(installed, "modinfo.origin"), "utf8").split("\n");
      assert.match(kind, /^(?:proved|unchecked)$/);
      assert.match(sources, /^sources [0-9a-f]{64}$/);
      const bytes = createHash("sha256").update(readFileSync(join(installed, "modinfo"))).digest("hex");
      assert.equal(file, `file ${bytes}`);
    });
  });

  test("the package of the program has the stamp beside the program, and no stamp of other bytes", () => {
    const program = standInWithVersion();
    const stamp = `${program}.origin`;
    /** Makes the packages, and returns how to read a file in that of the program; one that isn't there is undefined. */
    const packed = () => {
      const folder = folderOf();
      const tarball = pack(program, folder)[PACKAGES.length];
      const names = outputOf("tar", ["--list", "--gzip", "--file", tarball], { cwd: folder }).split("\n");
      return (/** @type {string} */ name) => names.includes(`package/${name}`)
        ? outputOf("tar", ["--extract", "--to-stdout", "--file", tarball, `package/${name}`], { cwd: folder })
        : undefined;
    };
    const fileOf = packed();
    assert.equal(fileOf("modinfo"), readFileSync(program, "utf8"));
    assert.equal(fileOf("modinfo.origin"), undefined);
    const bytes = createHash("sha256").update(readFileSync(program)).digest("hex");
    for (const kind of ["proved", "unchecked"]) {
      writeFileSync(stamp, `${kind}\nsources 0\nfile ${bytes}\n`);
      assert.equal(packed()("modinfo.origin"), `${kind}\nsources 0\nfile ${bytes}\n`);
    }
    writeFileSync(stamp, `proved\nsources 0\nfile ${"0".repeat(64)}\n`);
    const folder = folderOf();
    const { stderr, status } = spawnSync(join(HERE, "pack"), ["--module", MODULE, "--program", program, folder]);
    assert.deepEqual([String(stderr), status], [`bindings/node/pack: ${stamp} is the stamp of another file\n`, 1]);
    assert.deepEqual(readdirSync(folder), []);
  });

  test("where the installed program doesn't start, the message has what works", () => {
    const folder = folderOf({ "a.js": "" });
    const { version } = JSON.parse(read("modinfo/package.json"));
    npm(["install", ...pack(executable(`[ "$1" = --version ] && echo "modinfo ${version}"`), folder)], folder);
    const command = join(folder, "node_modules/.bin/modinfo-files");
    const ended = () => spawnSync(command, ["a.js"], { cwd: folder, env: { ...process.env, ...NOTHING } });
    const name = `modinfo-${process.platform}-${process.arch}`;
    const { stderr, status } = ended();
    assert.match(String(stderr), new RegExp(`status 1 \\(without the package ${name} WebAssembly runs, in threads\\)\n$`));
    assert.equal(status, 1);
    rmSync(join(folder, "node_modules", name), { recursive: true });
    const { stdout } = ended();
    assert.deepEqual(linesOf(String(stdout)).map(({ info }) => info), [{ script: true }]);
  });

  test("a program of another version, and none, are refused", () => {
    const folder = folderOf();
    /** @type {[words: string[], message: RegExp][]} */
    const refused = [
      [["--module", MODULE, "--program", executable("echo modinfo 9")], /prints 'modinfo 9', not 'modinfo \d/],
      [["--program", standInWithVersion(), "--module", join(folder, "none")], /there is no module .*none: packaging\/wasm\/build makes it/],
      [["--program", join(folder, "none")], /there is no program .*none: \.\/modinfo --prove makes it/],
      [["--target", "aarch64", "--program", join(folder, "none")], /none: tools\/prove_modinfo --target aarch64 makes it/],
    ];
    for (const [words, message] of refused) {
      const { stderr, status } = spawnSync(join(HERE, "pack"), [...words, folder]);
      assert.match(String(stderr), message);
      assert.equal(status, 1);
    }
    for (const words of [["--program"], ["--target", "mips"], ["--none", "a"], ["a", "b"]]) {
      const { stderr, status } = spawnSync(join(HERE, "pack"), words);
      assert.match(String(stderr), /^usage: bindings\/node\/pack /);
      assert.equal(status, 2);
    }
    assert.deepEqual(readdirSync(folder), []);
  });
});

test("packages with different versions are refused", () => {
  const { version } = JSON.parse(read("modinfo/package.json"));
  const asked = (/** @type {string} */ name, /** @type {string} */ other) => {
    return [`${name}/package.json`, `"${other}": "${version}"`, `${name} doesn't ask for version ${version} of ${other}`];
  };
  const own = (/** @type {string} */ folder, name = folder) => {
    return [`${folder}/package.json`, `"version": "${version}"`, `${name} has the version '9', not '${version}'`];
  };
  const refused = [
    own("linux-x64", "modinfo-linux-x64"), own("modinfo-graph"), own("modinfo-report"),
    asked("modinfo-graph", "modinfo-linux-x64"), asked("modinfo-graph", "modinfo"), asked("modinfo-report", "modinfo-graph"),
  ];
  for (const [file, place, message] of refused) {
    const all = ["pack", "linux-x64/package.json", ...PACKAGES.map((name) => `${name}/package.json`)];
    const names = ["tools/help.bash", ...all.map((name) => `bindings/node/${name}`)];
    const texts = Object.fromEntries(names.map((name) => [name, read(`../../${name}`)]));
    const other = read(file).replace(place, place.replace(version, "9"));
    const folder = folderOf({ ...texts, [`bindings/node/${file}`]: other });
    const words = [join(folder, "bindings/node/pack"), "--module", MODULE, "--program", standInWithVersion(), join(folder, "packages")];
    const { stderr, status } = spawnSync("bash", words);
    assert.deepEqual([String(stderr), status], [`bindings/node/pack: ${message}\n`, 1]);
    assert.deepEqual(readdirSync(join(folder, "packages")), []);
  }
});

describe("the package of the program for aarch64", { skip: noNpm && "npm isn't there" }, () => {
  /** Has node take this machine's processor for another one. */
  const OTHER_PROCESSOR = `data:text/javascript,Object.defineProperty(process, "arch", { value: "arm64" })`;

  /**
   * The packages with a program, installed in a folder.
   * @param {string} program
   * @param {NodeJS.ProcessEnv} variables
   */
  function installed(program, variables) {
    const folder = folderOf();
    const tarballs = pack(program, folder, ["--target", "aarch64"], variables);
    assert.deepEqual(tarballs.map((path) => basename(path).replace(/-[\d.]+\.tgz$/, "")), [...PACKAGES, "modinfo-linux-arm64"]);
    // Else npm refuses the package on another processor.
    npm(["install", "--force", ...tarballs], folder);
    return { folder, tarballs };
  }

  /** A stand-in for the emulator, which runs what this machine runs. */
  function withEmulator() {
    const emulator = executable(`[ "$1" = -L ] || exit 1\nshift 2\nexec "$@"`, EMULATOR);
    return { PATH: [dirname(emulator), process.env.PATH].join(delimiter) };
  }

  test("is the program's on that processor alone", () => {
    const { folder, tarballs } = installed(standInWithVersion(), withEmulator());
    const files = outputOf("tar", ["--list", "--gzip", "--file", tarballs[PACKAGES.length]], { cwd: folder }).trimEnd().split("\n");
    const names = ["COPYRIGHT", "LICENSE", "README.md", "modinfo", "package.json"];
    assert.deepEqual(files.sort(), names.map((name) => `package/${name}`).sort());
    const other = executable("echo called >&2; exit 1");
    const version = (/** @type {string[]} */ ...words) => {
      const command = join(folder, "node_modules/.bin/modinfo-files");
      return outputOf(process.execPath, [...words, command, "--version"], { cwd: folder, modinfo: other });
    };
    const own = /\(native: .*\/modinfo-linux-arm64\/modinfo\)\n$/;
    assert.match(version("--import", OTHER_PROCESSOR), own);
    assert.equal(own.test(version()), process.arch === "arm64");
  });

  test("npm refuses it on another processor", { skip: process.arch === "arm64" && "this is that processor" }, () => {
    const folder = folderOf();
    const tarballs = pack(standInWithVersion(), folder, ["--target", "aarch64"], withEmulator());
    const words = ["install", "--offline", "--cache", join(folder, "cache"), ...tarballs];
    const { stderr, status } = spawnSync("npm", words, { cwd: folder });
    assert.match(String(stderr), /EBADPLATFORM/);
    assert.notEqual(status, 0);
  });

  const noEmulator = spawnSync(EMULATOR, ["-version"]).status !== 0 && `${EMULATOR} isn't there`;
  const notBuilt = !existsSync(AARCH64_PROGRAM) && "build/aarch64/modinfo isn't made";

  test("in an empty folder the README's example runs, emulated", { skip: noEmulator || notBuilt }, () => {
    const { folder } = installed(AARCH64_PROGRAM, {});
    const program = join(folder, "node_modules/modinfo-linux-arm64/modinfo");
    const emulated = executable(`exec ${EMULATOR} -L ${AARCH64_SYSTEM} '${program}' "$@"`);
    const options = { cwd: folder, input: block("js"), modinfo: emulated };
    assert.equal(outputOf(process.execPath, ["--input-type=module"], options), block("text"));
  });
});
