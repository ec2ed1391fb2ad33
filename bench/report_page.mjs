/** The cost of a report's page in a browser. */

import { setTimeout as wait } from "node:timers/promises";

import { Browser } from "../bindings/node/tests/browser/browser.mjs";

const WINDOW = { width: 1400, height: 760 };

/** Categories of Chromium's trace in which tasks and the page's marks are. */
const TRACE = "toplevel,devtools.timeline,blink.user_timing";

/** Observes the page from its start: when its graph is drawn, and what each key takes. */
const OBSERVE = `
  window.measured = { keys: [], work: [] };
  new PerformanceObserver((list) => {
    list.getEntries().filter(({ name }) => name === "keydown" || name === "input").forEach((entry) => {
      measured.keys.push(entry.duration);
      measured.work.push(entry.processingEnd - entry.processingStart);
    });
  }).observe({ type: "event", durationThreshold: 16, buffered: true });
  const look = () => {
    const isThere = document.querySelector(".drawing svg, .drawing .none, .graph .none");
    return isThere ? (measured.drawn = performance.now()) : requestAnimationFrame(look);
  };
  look();
`;

/** How often the page is opened; of each cost the median is taken. */
const VISITS = 5;

/** The words that are typed into the filter, letter by letter. */
const WORDS = "index lib";

/** How many nodes of the graph the pointer is moved to. */
const HOVERED = 20;

/** How long the page may finish its work after a step, in milliseconds. */
const REST = 300;

/**
 * @typedef {object} PageCost all in milliseconds
 * @property {number} open from the address to the graph
 * @property {number} openTask processor time of the longest task until then
 * @property {number} key from a key in the filter to the picture that it changes, the longest of some
 * @property {number} keyWork time of that in the page's script
 * @property {number} hoverTask processor time of the longest task while the pointer goes from node to
 *   node
 */

/**
 * @param {string} url
 * @returns {Promise<PageCost>}
 */
export async function pageCost(url) {
  /** @type {PageCost[]} */
  const visits = [];
  for (let visit = 0; visit < VISITS; visit++) {
    visits.push(await visitCost(url));
  }
  /** @type {(name: keyof PageCost) => number} */
  const median = (name) => visits.map((visit) => visit[name]).sort((one, other) => one - other)[VISITS >> 1];
  return {
    open: median("open"), openTask: median("openTask"), hoverTask: median("hoverTask"),
    key: median("key"), keyWork: median("keyWork"),
  };
}

/**
 * Opens the page in a browser that has kept nothing of an earlier visit.
 * @param {string} url
 * @returns {Promise<PageCost>}
 */
async function visitCost(url) {
  const browser = await Browser.start({ ...WINDOW, trace: TRACE });
  try {
    await browser.command("Page.addScriptToEvaluateOnNewDocument", { source: OBSERVE });
    await browser.open(url);
    await browser.until("return measured.drawn !== undefined");
    await mark(browser, "opened");
    await hover(browser);
    await mark(browser, "hovered");
    const costs = await typeWords(browser);
    // chromedriver reads the trace when the page is left.
    await browser.open("about:blank");
    const [openTask, hoverTask] = longestTasks(await traceEvents(browser), ["opened", "hovered"]);
    return { ...costs, openTask, hoverTask };
  } finally {
    await browser.close();
  }
}

/**
 * Marks in the trace that a step has ended.
 * @param {Browser} browser
 * @param {string} step
 */
async function mark(browser, step) {
  await wait(REST);
  await browser.run("performance.mark(arguments[0])", step);
}

/** @param {Browser} browser */
async function hover(browser) {
  const points = await browser.run(`
    return [...document.querySelectorAll(".node")].slice(0, arguments[0]).map((node) => {
      const { left, top, width, height } = node.getBoundingClientRect();
      return { x: left + width / 2, y: top + height / 2 };
    });
  `, HOVERED);
  for (const { x, y } of points) {
    await browser.command("Input.dispatchMouseEvent", { type: "mouseMoved", x, y });
  }
}

/** @param {Browser} browser */
async function typeWords(browser) {
  await browser.run(`document.querySelector("#filter").focus()`);
  for (const letter of WORDS) {
    await browser.type(letter);
    await wait(100);
  }
  await wait(REST);
  return browser.run(`
    const { drawn, keys, work } = measured;
    return { open: drawn, key: Math.max(0, ...keys), keyWork: Math.max(0, ...work) };
  `);
}

/**
 * @typedef {{ name: string, pid: number, tid: number, ts: number, tdur?: number }} TraceEvent times are
 *   in microseconds
 */

/**
 * @param {Browser} browser
 * @returns {Promise<TraceEvent[]>}
 */
async function traceEvents(browser) {
  const entries = await browser.log("performance");
  return entries.map(({ message }) => JSON.parse(message).message)
    .filter(({ method }) => method === "Tracing.dataCollected").map(({ params }) => params);
}

/**
 * @param {TraceEvent[]} events
 * @param {string[]} steps names of the marks that end them
 * @returns {number[]} for each step the processor time of its longest task, in milliseconds
 */
function longestTasks(events, steps) {
  const marks = steps.map((step) => {
    const found = events.find(({ name }) => name === step);
    if (found === undefined) {
      throw new Error(`the trace has no mark ${step}`);
    }
    return found;
  });
  const [{ pid, tid }] = marks;
  const tasks = events.filter((event) => {
    return event.name.endsWith("RunTask") && event.pid === pid && event.tid === tid;
  });
  return marks.map(({ ts: end }, at) => {
    const start = marks[at - 1]?.ts ?? 0;
    const inside = tasks.filter(({ ts }) => ts >= start && ts < end);
    return inside.reduce((most, { tdur = 0 }) => Math.max(most, tdur), 0) / 1000;
  });
}
