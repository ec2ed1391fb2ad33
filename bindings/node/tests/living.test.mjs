/** Small projects as people have them: no living file is called dead, and the dead ones are found. */

import assert from "node:assert/strict";
import { existsSync } from "node:fs";
import { test } from "node:test";

import { folderOf, run } from "./run_commands.mjs";

/**
 * @typedef {object} Project of which each file is in use whose name doesn't begin with `dead`
 * @property {string[]} [entries] main.js, where it is missing
 * @property {string[]} [words]
 * @property {Record<string, string>} files
 * @property {string[]} [reached] those of which the entries are known to reach more than may be reached
 * @property {string[]} [mayBe] the lines of those that may be reached, in part
 */

/** @type {Record<string, Project>} */
const PROJECTS = {
  "a page of Vite, whose script has no semicolon after its name": {
    entries: ["index.html"],
    files: {
      "index.html": `<body><script src="/src/main.js" type="module"></script><script src="other.js" defer></script></body>`,
      "src/main.js": `import a from './a'\nimport b from './b'\n`, "src/a.js": "", "src/b.js": "", "other.js": "", "src/dead.js": "",
    },
    reached: ["index.html", "src/main.js", "src/a.js", "src/b.js", "other.js"],
  },
  "a script without an ending, with imports without semicolons": {
    entries: ["."],
    files: {
      "package.json": `{"bin":"bin/tool"}`, "bin/tool": "#!/usr/bin/env node\nimport { a } from '../lib/a'\nimport '../lib/b'\n",
      "lib/a.js": "", "lib/b.js": "", "lib/dead.js": "",
    },
    reached: ["lib/a.js", "lib/b.js"],
  },
  "names that only a text shows": {
    files: {
      "main.js": `import(c ? './a.js' : "./b.js"); require(x || './c'); const p = './d.js'; require(p);
        createRequire(import.meta.url)('./e.js'); module.require('./f'); fork('g.js'); register('./h.mjs', import.meta.url);
        importScripts('i.js', "j.js"); audio.addModule("k.js"); mock.module('./l.js', {}); proxyquire('./m', {}); td.replace("./n.js");
        navigator.serviceWorker.register('/sw.js'); const t = \`./locales/\${l}.js\`; run("lib/o.js"); // './dead_comment.js'
        fetch('/users/list'); fetch("/dead/list"); const isQuote = /["'\`]/; const s = "http://x.y/dead.js"; use('./p.mjs') /* './dead.js' */`,
      ...Object.fromEntries([..."abcdefgijkmn"].map((name) => [`${name}.js`, ""])), "h.mjs": "", "l.js": "", "public/sw.js": "",
      "locales/de.js": "", "lib/o.js": "", "p.mjs": "", "dead.js": "", "dead_comment.js": "", "users/list/dead.js": "",
    },
    mayBe: ["a.js: may be reached: text of ./a.js at main.js:1:12", "c.js: may be reached: text of ./c at main.js:1:47"],
  },
  "jest's configuration, which names sources too": {
    entries: ["jest.config.js", "src/main.js"],
    files: {
      "package.json": "{}", "jest.config.js": `module.exports = { setupFiles: ["<rootDir>/test/setup.js"], globalSetup: "./test/global.ts",
        testMatch: ["**/?(*.)+(spec|test).[jt]s?(x)"], collectCoverageFrom: ["src/**/*.js", "!src/**/*.d.ts"], roots: ["<rootDir>/src"] };`,
      "test/setup.js": "", "test/global.ts": "", "src/main.js": "", "src/a.test.js": `import "./helper";`, "src/helper.js": "", "src/b.spec.tsx": "",
      "src/dead.js": "", "src/deep/dead.js": "",
    },
  },
  "jest's configuration in package.json": {
    entries: ["."],
    files: {
      "package.json": `{"main":"main.js","jest":{"setupFiles":["./test/setup.js"],"collectCoverageFrom":["src/**/*.js"]},"files":["dead.js"]}`,
      "main.js": "", "test/setup.js": "", "dead.js": "", "src/dead.js": "",
    },
  },
  "a Vite configuration that names a folder": {
    entries: ["vite.config.ts", "src/main.ts"],
    files: {
      "vite.config.ts": `export default { resolve: { alias: { "@": fileURLToPath(new URL('./src', import.meta.url)), "~": "./src" } } };`,
      "src/main.ts": "", "src/dead.ts": "", "src/deep/dead.ts": "",
    },
  },
  "Tailwind's content": {
    entries: ["tailwind.config.js", "src/main.tsx"],
    files: {
      "tailwind.config.js": `module.exports = { content: ["./index.html", "./src/**/*.{js,ts,jsx,tsx}", './src/*.tsx'] };`,
      "src/main.tsx": "", "src/dead.tsx": "", "src/deep/dead.ts": "",
    },
  },
  "eslint's files": {
    entries: ["eslint.config.js", "src/main.ts"],
    files: {
      "eslint.config.js": `export default [{ files: ["**/*.ts", "src/**/*.{ts,tsx}", "**/*.[jt]s"], ignores: ["dist/**"] }];`,
      "src/main.ts": "", "src/dead.ts": "", "src/deep/dead.js": "",
    },
  },
  "stories by a glob": {
    entries: ["storybook/main.ts", "src/main.ts"],
    files: {
      "storybook/main.ts": `export default { stories: ["../src/**/*.stories.@(js|jsx|ts|tsx)", "../src/**/*.mdx"] };`,
      "src/main.ts": "", "src/a.stories.tsx": `import "./A";`, "src/A.tsx": "", "src/deep/b.stories.js": "", "src/dead.tsx": "",
    },
    mayBe: ["src/A.tsx: may be reached: import of ./A at src/a.stories.tsx:1:8"],
  },
  "packages that load folders": {
    files: {
      "main.js": `const all = require('require-dir'); all('./lib', { recurse: true }); require("require-directory")(module, "./routes");
        import everything from 'require-all'; everything(__dirname + '/models'); const other = f("./dead_folder");`,
      "lib/a.js": "", "lib/b/c.js": "", "routes/d.js": "", "models/e.js": "", "dead_folder/dead.js": "",
    },
  },
  "require.context and import.meta.glob": {
    files: {
      "main.js": `require.context('./lib', true, /\\.js$/); import.meta.glob('./views/*.js'); import.meta.glob("@/pages/**/*.vue");`,
      "lib/a.js": "", "views/b.js": "", "src/pages/c/d.vue": "", "views/deep/dead.js": "", "src/dead.vue": "",
    },
  },
  "an output that is there, and its sources by a configuration": {
    entries: ["."], words: ["src"],
    files: {
      "package.json": `{"main":"dist/index.js"}`, "tsconfig.json": `{"compilerOptions":{"outDir":"dist","rootDir":"src"}}`,
      "dist/index.js": `require("./a");`, "dist/a.js": "", "src/index.ts": `import "./a"; import type { T } from "./b"; import "./c";`,
      "src/a.ts": "", "src/b.ts": "", "src/c.ts": "", "src/dead.ts": "", "dist/dead.js": "",
    },
    reached: ["src/index.ts", "src/a.ts", "src/c.ts"],
  },
  "outputs of sources with the same name and other endings": {
    entries: ["."], words: ["src"],
    files: {
      "package.json": `{"main":"dist/index.cjs","bin":"dist/index.js"}`, "dist/index.cjs": "", "dist/index.js": "",
      "tsconfig.json": `{"compilerOptions":{"outDir":"dist","rootDir":"src"}}`, "src/index.ts": "",
      "src/index.cts": `import "./a.cjs";`, "src/a.cts": "", "src/dead.cts": "",
    },
    reached: ["src/index.ts", "src/index.cts", "src/a.cts"],
  },
  "outputs of project references and of a workspace": {
    entries: ["main.ts"],
    files: {
      "package.json": `{"workspaces":["packages/*"]}`, "main.ts": `import "w"; import "./build/x/x.js";`,
      "tsconfig.json": `{"files":[],"references":[{"path":"x"}]}`, "x/tsconfig.json": `{"compilerOptions":{"outDir":"../build/x"}}`,
      "x/x.ts": `import "./y";`, "x/y.ts": "", "build/x/x.js": `import "./y.js";`, "build/x/y.js": "",
      "packages/w/package.json": `{"name":"w","main":"./dist/index.js","types":"./dist/index.d.ts"}`,
      "packages/w/tsconfig.json": `{"compilerOptions":{"outDir":"dist","declarationDir":"dist/types"},"include":["src"]}`,
      "packages/w/dist/index.js": "", "packages/w/src/index.ts": `import "./deep";`, "packages/w/src/deep.ts": "", "packages/w/src/dead.ts": "",
    },
    reached: ["x/x.ts", "x/y.ts", "packages/w/src/index.ts", "packages/w/src/deep.ts"],
  },
  "an output whose configuration has another name": {
    entries: ["."],
    files: {
      "package.json": `{"main":"dist/index.js"}`, "tsconfig.build.json": `{"compilerOptions":{"outDir":"dist"}}`,
      "dist/index.js": "", "src/index.ts": `import "./a";`, "src/a.ts": "", "src/dead.ts": "",
    },
    mayBe: [
      "src/a.ts: may be reached: import of ./a at src/index.ts:1:8", "src/index.ts: may be reached: output at dist/index.js",
    ],
  },
  "conditions of imports, and what browser and react-native have in the place of others": {
    files: {
      "package.json": `{"imports":{"#a":{"node":"./a.js","default":"./b.js"},"#p/*":{"browser":"./c/*.js","default":"./d/*.js"}},
        "browser":{"./e.js":"./f.js","./dead_key.js":"./dead_value.js"},"react-native":{"./e.js":"./g.js"}}`,
      "main.js": `import "#a"; import "#p/x"; import "./e.js";`, "a.js": "", "b.js": "", "c/x.js": "", "d/x.js": "", "e.js": "", "f.js": "",
      "g.js": "", "c/dead.js": "", "dead_key.js": "", "dead_value.js": "",
    },
    mayBe: ["b.js: may be reached: condition of #a at main.js:1:8", "f.js: may be reached: condition of ./e.js at main.js:1:36"],
  },
  "exports with other conditions, and other members that name entries": {
    entries: ["."],
    files: {
      "package.json": JSON.stringify({
        exports: { ".": { browser: "./a.js", node: "./b.js", default: "./c.js" }, "./*": "./src/*/*.js", "./no/*": null },
        unpkg: "umd.js", "react-native": "native", source: "source.ts", svelte: "svelte.js",
        scripts: { build: "node scripts/build.js && ts-node ./scripts/other.ts --watch", lint: "eslint scripts/dead.js && CI=1 npx prettier --check src/d/dead.js" },
      }),
      "a.js": "", "b.js": "", "c.js": "", "src/d/d.js": "", "src/d/dead.js": "", "src/no/no.js": "", "umd.js": "", "native.js": "",
      "source.ts": "", "svelte.js": "", "scripts/build.js": "", "scripts/other.ts": "", "scripts/dead.js": "",
    },
    reached: ["b.js", "src/d/d.js", "umd.js", "native.js", "source.ts", "svelte.js", "scripts/build.js", "scripts/other.ts"],
  },
  "names of a bundler's alias": {
    files: {
      "main.js": `import "@/views/a"; import '~/b.js'; import "$lib/c"; import $ from '$d';`,
      "src/views/a.vue": "", "app/b.ts": "", "src/lib/c/index.js": "", "d/index.ts": "", "views/dead.js": "",
    },
  },
  "an import map in a page": {
    entries: ["web/index.html"],
    files: {
      "web/index.html": `<script type="importmap">{"imports":{"a":"./js/a.js","lib/":"/lib/"},"scopes":{"./js/":{"c":"./c.js"}}}</script>
        <script type="module">import "a";</script>`,
      "web/js/a.js": `import "lib/b.js"; import "c";`, "web/lib/b.js": "", "web/c.js": "", "web/js/dead.js": "",
    },
    reached: ["web/index.html", "web/js/a.js", "web/lib/b.js", "web/c.js"],
  },
  "endings of all kinds": {
    entries: ["."], words: ["--types"],
    files: {
      "package.json": `{"main":"Main.JS"}`, "Main.JS": `require("./a.css"); require("./b.mjs")`, "a.css": "", "a.d.css.ts": "", "b.mjs": "",
      "b.d.mts": "export {};", "dead.d.css.ts": "", "dead.d.ts": "",
    },
  },
  "files for platforms, and what makes JSX": {
    entries: ["main.tsx"],
    files: {
      "tsconfig.json": `{"compilerOptions":{"jsx":"react-jsx","jsxImportSource":"@app/jsx","paths":{"@app/*":["./lib/*"]}}}`,
      "main.tsx": `import "./Foo"; import "./Bar";`, "Foo.ios.tsx": "", "Foo.android.tsx": "", "Bar.tsx": "", "Bar.native.tsx": "",
      "lib/jsx/jsx-runtime.ts": "", "dead.ios.tsx": "",
    },
    reached: ["main.tsx", "Bar.tsx", "lib/jsx/jsx-runtime.ts"],
  },
  "components of Vue": {
    entries: ["main.ts"],
    files: {
      "main.ts": `import App from "./App.vue";`,
      "App.vue": `<script setup lang="ts">\nimport A from './A.vue'\nimport b from './b'\nconst C = defineAsyncComponent(() => import("./C.vue"))\n</script>
<template><A /><img src="./logo.png"></template>\n<script>export default {}</script>`,
      "A.vue": `<template/><script src="./a_script.ts" lang="ts"></script>`, "a_script.ts": "", "b.ts": "", "C.vue": "<template/>", "dead.vue": `<script>import "./dead.js"</script>`,
      "dead.js": "",
    },
    reached: ["App.vue", "A.vue", "a_script.ts", "b.ts", "C.vue"],
  },
  "components of Svelte, with an alias of the configuration": {
    entries: ["src/main.js"],
    files: {
      "tsconfig.json": `{"compilerOptions":{"paths":{"$lib":["./src/lib"],"$lib/*":["./src/lib/*"]}}}`,
      "src/main.js": `import App from './App.svelte'\n`, "src/App.svelte": `<script lang="ts">\n  import { s } from '$lib'\n  import t from '$lib/t'\n</script>\n{s}`,
      "src/lib/index.ts": `export { s } from "./s"`, "src/lib/s.ts": "", "src/lib/t.ts": "", "src/lib/dead.ts": "",
    },
    reached: ["src/App.svelte", "src/lib/index.ts", "src/lib/s.ts", "src/lib/t.ts"],
  },
  "components of Astro, and MDX": {
    entries: ["index.astro"],
    files: {
      "index.astro": `---\nimport A from "./A.astro";\nif (x) return Astro.redirect("/");\nimport Doc from './doc.mdx'\n---\n<A/><script>import "./client";</script>`,
      "A.astro": "<p/>", "client.ts": "", "doc.mdx": `import { C } from './C'\n\n# Text\n\n<C/>\n\n\`\`\`js\nimport './dead'\n\`\`\`\n`, "C.jsx": "", "dead.js": "",
    },
    reached: ["A.astro", "client.ts", "doc.mdx", "C.jsx"],
  },
  "workers": {
    files: {
      "main.js": `new Worker(new URL('./a.js', import.meta.url), { type: 'module' }); new SharedWorker('b.js'); new Worker("./c.js");
        CSS.paintWorklet.addModule('d.js'); const w = new Worker(isDev ? './e.js' : './f.js');`,
      "a.js": `importScripts('./deep.js')`, "deep.js": "", "b.js": "", "c.js": "", "d.js": "", "e.js": "", "f.js": "", "dead.js": "",
    },
  },
  "modules of AMD": {
    entries: ["index.html", "js/main.js"],
    files: {
      "index.html": `<script data-main="js/main" src="js/require.js"></script>`, "js/require.js": "",
      "js/main.js": `require(['app/a', "./b", 'text!x.html'], function (a, b) {});`, "js/app/a.js": `define("a", ['app/c', 'require'], function () {});`,
      "js/b.js": "define(['app/d'], function () {});", "js/app/c.js": "", "js/app/d.js": "", "js/app/dead.js": "",
    },
  },
  "routes of SvelteKit": {
    entries: ["src/hooks.server.ts"],
    files: {
      "package.json": `{"devDependencies":{"@sveltejs/kit":"2"}}`, "src/hooks.server.ts": "", "src/routes/a/+page.svelte": `<script>import B from '$lib/B.svelte'</script>`,
      "src/lib/B.svelte": "", "src/lib/dead.svelte": "", "src/routes/a/dead.ts": "",
    },
  },
  "a project of Next": {
    entries: ["pages/index.tsx"],
    files: {
      "package.json": `{"dependencies":{"next":"14"}}`, "pages/api/a.ts": "", "app/b/page.tsx": `import "./part";`, "app/b/part.tsx": "",
      "app/b/dead.tsx": "", "middleware.ts": "", "tsconfig.json": `{"compilerOptions":{"baseUrl":".","paths":{"@/*":["./*"]}}}`,
      "pages/index.tsx": `import A from '@/components/A'\nconst B = dynamic(() => import('../components/B'), { ssr: false })\n`,
      "pages/_app.tsx": `import '../styles/a.css'\nimport { f } from 'lib/f'\n`, "styles/a.css": "", "components/A.tsx": "", "components/B.tsx": "", "lib/f.ts": "",
      "components/dead.tsx": "",
    },
    reached: ["components/A.tsx", "components/B.tsx"],
    mayBe: ["pages/api/a.ts: may be reached: convention of next at package.json", "app/b/part.tsx: may be reached: import of ./part at app/b/page.tsx:1:8"],
  },
};

for (const [name, { entries = ["main.js"], words = [], files, reached, mayBe = [] }] of Object.entries(PROJECTS)) {
  test(`${name}: no living file is dead`, () => {
    const cwd = folderOf(files);
    const given = entries.flatMap((entry) => ["--entry", entry]);
    const { stdout } = run("files", [...given, "--unreached", ...words, "."], { cwd });
    const lines = stdout.split("\n").slice(0, -1);
    const isDead = (/** @type {string} */ path) => /(?:^|\/)dead[^/]*$/.test(path) && !/\.d\.ts$/.test(path.replace("dead.d.ts", ""));
    assert.deepEqual(lines.filter((line) => !line.includes(": ")).sort(), Object.keys(files).filter(isDead).sort());
    assert.deepEqual(mayBe.filter((line) => !lines.includes(line)), []);
    if (reached) {
      const found = run("files", given, { cwd }).stdout.split("\n");
      assert.deepEqual(reached.filter((path) => !found.includes(path)), []);
    }
  });
}

for (const [name, count] of /** @type {const} */ ([["istanbul", 38], ["handlebars", 36]])) {
  const cwd = `/usr/share/nodejs/${name}`;
  test(`${name}: the files that no entry reaches are found`, { skip: !existsSync(cwd) && "it isn't installed" }, () => {
    const { stdout } = run("files", ["--entry", ".", "--unreached", "."], { cwd });
    assert.equal(stdout.split("\n").filter((line) => line !== "" && !line.includes(": ")).length, count);
  });
}
