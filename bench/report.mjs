#!/usr/bin/env node
/**
 * Measures the cost of reports: to make, and in a browser.
 *
 * usage: node bench/report.mjs [--jobs N] [--program FILE] FOLDER ..
 * example: node bench/report.mjs /usr/share/nodejs/undici
 *
 *   --jobs N        processes that parse; else one for each processor
 *   --program FILE  another cli.js, as that of an older clone
 *   FOLDER          a folder, or a page that is made already, whose name ends in .html, with an
 *                   address in it after `#`
 *
 * Opens each page five times in a new headless Chromium, moves the pointer over 20 nodes and types
 * nine keys into the filter.
 *
 *   made in, memory  of the command, without the processes of modinfo
 *   opens in         from the address to the drawn graph; longest task: the page's, in processor
 *                    time until then
 *   key              from a key to the picture that it changes, the longest of nine, in steps of
 *                    8 ms; its script: the part in the page's script
 *   at the nodes     processor time of the longest task while the pointer moves
 */

import { spawn } from "node:child_process";
import { mkdtempSync, readFileSync, rmSync, statSync } from "node:fs";
import { tmpdir } from "node:os";
import { basename, join, resolve } from "node:path";
import { fileURLToPath, pathToFileURL } from "node:url";
import { parseArgs } from "node:util";

import { printHelp } from "./help.mjs";
import { pageCost } from "./report_page.mjs";

printHelp(import.meta.url);

const PROGRAM = fileURLToPath(new URL("../bindings/node/modinfo-report/dist/cli.js", import.meta.url));

const COLUMNS = [
  "", "made in, s", "memory, MB", "page, MB", "opens in, s", "longest task, ms", "key, ms",
  "its script, ms", "at the nodes, ms",
];

const { values, positionals } = parseArgs({
  options: { jobs: { type: "string" }, program: { type: "string", default: PROGRAM } },
  allowPositionals: true,
});
const temporary = mkdtempSync(join(tmpdir(), "bench-report-"));
try {
  print(COLUMNS);
  print(COLUMNS.map(() => "---"));
  for (const path of positionals) {
    const [file, hash = ""] = path.split("#");
    /** @type {{ page: string, seconds?: number, memory?: number }} */
    const made = file.endsWith(".html") ? { page: resolve(file) } : await make(file);
    const url = `${pathToFileURL(made.page).href}#${hash}`;
    const { open, openTask, key, keyWork, hoverTask } = await pageCost(url);
    print([
      basename(path), made.seconds?.toFixed(1) ?? "", made.memory?.toFixed(0) ?? "",
      (statSync(made.page).size / 1e6).toFixed(2), (open / 1000).toFixed(2),
      openTask.toFixed(0), key.toFixed(0), keyWork.toFixed(0), hoverTask.toFixed(0),
    ]);
  }
} finally {
  rmSync(temporary, { recursive: true });
}

/** @param {string[]} cells */
function print(cells) {
  process.stdout.write(`| ${cells.join(" | ")} |\n`);
}

/**
 * Makes a report.
 * @param {string} folder
 * @returns {Promise<{ page: string, seconds: number, memory: number }>} the memory is the largest
 *   resident set, in MB
 */
async function make(folder) {
  const page = join(temporary, `${basename(folder)}.html`);
  const jobs = values.jobs ? ["--jobs", values.jobs] : [];
  const start = performance.now();
  const words = [values.program ?? PROGRAM, ...jobs, "-o", page, folder];
  const child = spawn(process.execPath, words, { stdio: ["ignore", "ignore", "inherit"] });
  let memory = 0;
  const watch = setInterval(() => (memory = Math.max(memory, peakOf(child.pid))), 100);
  await new Promise((end) => child.once("close", end));
  clearInterval(watch);
  return { page, seconds: (performance.now() - start) / 1000, memory };
}

/**
 * @param {number | undefined} pid
 * @returns {number} the largest resident set of a process so far, in MB; 0 where it has ended
 */
function peakOf(pid) {
  try {
    const [, kilobytes] = /^VmHWM:\s+(\d+)/m.exec(readFileSync(`/proc/${pid}/status`, "utf8")) ?? [];
    return Number(kilobytes ?? 0) / 1000;
  } catch {
    return 0;
  }
}
