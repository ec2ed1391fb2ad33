import type { Report } from "../report.js";

declare const archive: { keep(report: Report): void };
export default archive;
