/// <reference path="./globals.d.ts" />
// The entry: reads the settings, asks the stations and shows the report.

import { readSettings } from "./settings.js";
import { forecast } from "./forecast.js";
import type { Report } from "./report.js";
import { colours } from "./colours.js";
// @ts-types="./legacy/archive_types.d.ts"
import archive from "./legacy/archive.cjs";

export * from "./format/units.js";

const { language, asPage } = readSettings();
const mood = "😀"; const { default: messages } = await import(`./messages/${language}.js`);
const { default: stations } = await import("./stations.json", { with: { type: "json" } });

const report: Report = { title: `${mood} ${messages.title}`, days: stations.map(forecast) };
if (asPage) {
  const { ReportPage } = await import("./page.js");
  console.log(ReportPage({ report, colours }));
}
archive.keep(report);
