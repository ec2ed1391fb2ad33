import { tomorrow } from "./forecast.js";

export const oldForecast = () => `${tomorrow}: rain`;
