/** @import { Report } from "../report.js" */

import { SIGNS } from "./units.js";

/**
 * @param {number} degrees
 * @param {import("../report.js").Unit} unit
 */
export function rounded(degrees, unit) {
  return `${Math.round(degrees)} ${SIGNS[unit]}`;
}
