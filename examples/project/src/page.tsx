/** @jsxImportSource preact */
import type { Report } from "./report.js";
import { rounded } from "./format/numbers.js";

export function ReportPage({ report, colours }: { report: Report; colours: string[] }) {
  return <ul style={{ color: colours[0] }}>
    {report.days.map((day) => <li>{day.name}: {rounded(day.degrees, day.unit)}</li>)}
  </ul>;
}
