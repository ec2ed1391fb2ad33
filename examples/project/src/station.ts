import type { Day } from "./report.js";
import { tomorrow } from "./forecast.js";

export class Station {
  constructor(readonly name: string) {}

  today(): Day {
    return { name: `${this.name}, ${tomorrow}`, degrees: 12, unit: "celsius" };
  }
}
