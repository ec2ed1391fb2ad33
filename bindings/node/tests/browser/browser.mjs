/**
 * A headless Chromium, by the WebDriver protocol, with which its chromedriver is asked.
 * https://www.w3.org/TR/webdriver2/
 */

import { spawn, spawnSync } from "node:child_process";
import { once } from "node:events";
import { mkdtempSync, rmSync } from "node:fs";
import { tmpdir } from "node:os";
import { join } from "node:path";
import { createInterface } from "node:readline";
import { setTimeout as wait } from "node:timers/promises";

/** @typedef {{ x: number, y: number }} Point of the window, in pixels */

/** The name under which an element is handed over. */
const ELEMENT = "element-6066-11e4-a52e-4f735466cecf";

/** How long a page may take to become what is asked for, in milliseconds. */
const PATIENCE = 120_000;

/** What the protocol calls some keys. */
export const KEYS = {
  enter: "\ue007", escape: "\ue00c", left: "\ue012", up: "\ue013", right: "\ue014", down: "\ue015",
  end: "\ue010",
};

/** What a page is opened with, and a word that each of them knows. */
const PROGRAMS = [["chromium", "--version"], ["chromedriver", "--version"]];

/**
 * Why no page can be opened.
 * @returns {string | false}
 */
export function missingPrograms() {
  const missing = PROGRAMS.filter(([name, word]) => spawnSync(name, [word]).status !== 0);
  const names = missing.map(([name]) => name).join(", ");
  return missing.length > 0 && `tools/setup browser installs what isn't there: ${names}`;
}

export class Browser {
  /** @type {import("node:child_process").ChildProcess} */
  #driver;
  /** The folder of Chromium's files. @type {string} */
  #profile;
  /** The address of the session; empty before it begins. */
  #session = "";

  /**
   * @param {import("node:child_process").ChildProcess} driver
   * @param {string} profile
   */
  constructor(driver, profile) {
    this.#driver = driver;
    this.#profile = profile;
  }

  /**
   * @param {{ width?: number, height?: number, trace?: string }} options the size of the window, and
   *   the categories of a trace, which goes to the performance log
   * @returns {Promise<Browser>}
   */
  static async start({ width = 1360, height = 900, trace } = {}) {
    const profile = mkdtempSync(join(tmpdir(), "report-browser-"));
    const driver = spawn("chromedriver", ["--port=0"], { stdio: ["ignore", "pipe", "ignore"] });
    const browser = new Browser(driver, profile);
    try {
      browser.#session = await browser.#begin(width, height, trace);
    } catch (error) {
      await browser.close();
      throw error;
    }
    return browser;
  }

  /**
   * @param {number} width
   * @param {number} height
   * @param {string | undefined} trace
   * @returns {Promise<string>} the address of the session
   */
  async #begin(width, height, trace) {
    const address = await addressOf(this.#driver);
    // In a container there is often no sandbox to be had, and little shared memory.
    const args = [
      "--headless=new", "--no-sandbox", "--disable-dev-shm-usage", "--disable-gpu", "--hide-scrollbars",
      `--window-size=${width},${height}`, `--user-data-dir=${this.#profile}`,
    ];
    const perfLoggingPrefs = { enableNetwork: true, traceCategories: trace };
    const { sessionId } = await request(`${address}/session`, "POST", {
      capabilities: {
        alwaysMatch: {
          browserName: "chrome",
          "goog:chromeOptions": { args, perfLoggingPrefs },
          "goog:loggingPrefs": { browser: "ALL", performance: "ALL" },
        },
      },
    });
    return `${address}/session/${sessionId}`;
  }

  /** @param {string} url */
  async open(url) {
    await this.#post("url", { url });
  }

  /**
   * @param {string} body of a function
   * @param {...unknown} args its arguments
   * @returns {Promise<any>} what it returns
   */
  run(body, ...args) {
    return this.#post("execute/sync", { script: body, args });
  }

  /**
   * Waits until a function returns true.
   * @param {string} body of the function
   * @param {...unknown} args its arguments
   */
  async until(body, ...args) {
    const end = Date.now() + PATIENCE;
    while (!await this.run(body, ...args)) {
      if (Date.now() > end) {
        throw new Error(`the page never came to this: ${body}`);
      }
      await wait(20);
    }
  }

  /** @param {string} selector */
  async click(selector) {
    const element = await this.#post("element", { using: "css selector", value: selector });
    await this.#post(`element/${element[ELEMENT]}/click`, {});
  }

  /**
   * Presses keys where the focus is.
   * @param {string} text
   */
  async type(text) {
    const actions = [...text].flatMap((value) => [{ type: "keyDown", value }, { type: "keyUp", value }]);
    await this.#post("actions", { actions: [{ type: "key", id: "keyboard", actions }] });
  }

  /**
   * Presses the mouse's button at a point, moves it, and lets it go.
   * @param {Point} from
   * @param {Point} to
   */
  async drag(from, to) {
    /** @type {(type: string, point: Point, buttons: number) => Promise<void>} */
    const mouse = (type, { x, y }, buttons) => {
      return this.command("Input.dispatchMouseEvent", { type, x, y, button: "left", buttons, clickCount: 1 });
    };
    await mouse("mouseMoved", from, 0);
    await mouse("mousePressed", from, 1);
    await mouse("mouseMoved", { x: (from.x + to.x) / 2, y: (from.y + to.y) / 2 }, 1);
    await mouse("mouseMoved", to, 1);
    await mouse("mouseReleased", to, 0);
  }

  /**
   * Turns the wheel at a point.
   * @param {Point} point
   * @param {number} deltaY above 0 as for scrolling down
   */
  wheel({ x, y }, deltaY) {
    return this.command("Input.dispatchMouseEvent", { type: "mouseWheel", x, y, deltaX: 0, deltaY });
  }

  /**
   * Moves two fingers, each from a point to another one.
   * @param {Point[]} from
   * @param {Point[]} to
   */
  async pinch(from, to) {
    /** @type {(type: string, points: Point[]) => Promise<void>} */
    const touch = (type, points) => {
      return this.command("Input.dispatchTouchEvent", { type, touchPoints: points.map((point, id) => ({ ...point, id })) });
    };
    await touch("touchStart", from);
    await touch("touchMove", to);
    await touch("touchEnd", []);
  }

  /** @returns {Promise<Buffer>} a PNG of what the window shows */
  async picture() {
    const { data } = await this.command("Page.captureScreenshot", { format: "png" });
    return Buffer.from(data, "base64");
  }

  /** @param {"browser" | "performance"} type @returns {Promise<{ message: string }[]>} what was logged since the last call */
  log(type) {
    return this.#post("se/log", { type });
  }

  /**
   * A command of Chromium's own protocol.
   * @param {string} cmd
   * @param {object} params
   * @returns {Promise<any>}
   */
  command(cmd, params = {}) {
    return this.#post("goog/cdp/execute", { cmd, params });
  }

  async close() {
    if (this.#session) {
      await request(this.#session, "DELETE").catch(() => {});
    }
    const { exitCode, signalCode } = this.#driver;
    if (exitCode === null && signalCode === null) {
      const exit = once(this.#driver, "exit");
      this.#driver.kill();
      await exit;
    }
    rmSync(this.#profile, { recursive: true, force: true, maxRetries: 5, retryDelay: 200 });
  }

  /**
   * @param {string} path of a command
   * @param {object} body
   */
  #post(path, body) {
    return request(`${this.#session}/${path}`, "POST", body);
  }
}

/**
 * @param {import("node:child_process").ChildProcess} driver
 * @returns {Promise<string>} where it listens
 */
async function addressOf(driver) {
  const output = /** @type {import("node:stream").Readable} */ (driver.stdout);
  for await (const line of createInterface({ input: output })) {
    const [, port] = /successfully on port (\d+)/.exec(line) ?? [];
    if (port) {
      output.resume();
      return `http://127.0.0.1:${port}`;
    }
  }
  throw new Error("chromedriver ended before it printed where it listens");
}

/**
 * @param {string} url
 * @param {"POST" | "DELETE"} method
 * @param {object} [body]
 */
async function request(url, method, body) {
  const response = await fetch(url, { method, body: body && JSON.stringify(body) });
  const { value } = await response.json();
  if (!response.ok) {
    throw new Error(`${value.error}: ${value.message.split("\n")[0]}`);
  }
  return value;
}
