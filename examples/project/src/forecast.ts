import type { Day } from "./report.js";
import { Station } from "./station.js";

/** Tomorrow's weather: today's. */
export function forecast(name: string): Day {
  return new Station(name).today();
}

export const tomorrow = "tomorrow";
