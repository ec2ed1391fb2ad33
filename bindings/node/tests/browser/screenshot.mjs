#!/usr/bin/env node
/**
 * Makes bindings/node/report.png: the report of examples/project, its overview above one of its modules.
 *
 *     node bindings/node/tests/browser/screenshot.mjs [light | dark] [FILE]
 */

import { spawnSync } from "node:child_process";
import { mkdtempSync, rmSync, writeFileSync } from "node:fs";
import { tmpdir } from "node:os";
import { join } from "node:path";
import { fileURLToPath, pathToFileURL } from "node:url";

import { Browser } from "./browser.mjs";
import { withFewColours } from "./png.mjs";

const ROOT = fileURLToPath(new URL("../../../../", import.meta.url));
const WIDTH = 1240;

/** What of the page is taken: its address after the file, and how high. */
const VIEWS = /** @type {const} */ ([["", 780], ["#module-7-5", 640]]);

/** Puts the pictures below one another, with a line between them. */
const JOIN = `
  document.body.style.margin = 0;
  for (const data of arguments[0]) {
    const image = new Image();
    image.src = "data:image/png;base64," + data;
    image.style.display = "block";
    image.style.borderBottom = "2px solid #888";
    document.body.append(image);
    await image.decode();
  }
`;

const [scheme = "light", file = join(ROOT, "bindings/node/report.png")] = process.argv.slice(2);
const folder = mkdtempSync(join(tmpdir(), "report-"));
const browser = await Browser.start();
try {
  const page = join(folder, "report.html");
  const words = ["--entry", "examples/project/src/main.ts", "-o", page, "examples/project"];
  const command = ["bindings/node/modinfo-report/dist/cli.js", ...words];
  const { status } = spawnSync(process.execPath, command, { cwd: ROOT, stdio: ["ignore", "inherit", "pipe"] });
  // A name in the project leads nowhere.
  if (status !== 1) {
    throw new Error(`the report ended with status ${status}`);
  }
  const pictures = [];
  for (const [hash, height] of VIEWS) {
    pictures.push(await picture(`${pathToFileURL(page)}${hash}`, height));
  }
  await browser.open("about:blank");
  await browser.run(JOIN, pictures);
  const height = VIEWS.reduce((sum, [, each]) => sum + each + 2, -2);
  writeFileSync(file, withFewColours(Buffer.from(await capture(height), "base64")));
} finally {
  await browser.close();
  rmSync(folder, { recursive: true });
}

/**
 * @param {string} url
 * @param {number} height
 * @returns {Promise<string>} a PNG in base64
 */
async function picture(url, height) {
  const features = [{ name: "prefers-color-scheme", value: scheme }];
  await browser.command("Emulation.setEmulatedMedia", { features });
  await resize(height);
  await browser.open("about:blank");
  await browser.open(url);
  await browser.until(`return document.querySelector(".scene[transform], .chosen") !== null`);
  return capture(height);
}

/** @param {number} height */
async function resize(height) {
  const size = { width: WIDTH, height, deviceScaleFactor: 1, mobile: false };
  await browser.command("Emulation.setDeviceMetricsOverride", size);
}

/**
 * @param {number} height
 * @returns {Promise<string>} a PNG in base64
 */
async function capture(height) {
  await resize(height);
  const { data } = await browser.command("Page.captureScreenshot", { format: "png" });
  return data;
}
