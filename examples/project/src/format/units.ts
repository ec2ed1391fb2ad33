import type { Unit } from "../report.js";

export const SIGNS: Record<Unit, string> = { celsius: "°C", fahrenheit: "°F" };
