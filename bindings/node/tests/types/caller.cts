/** A caller of the package by `require`, whose types are checked; it isn't run. */

import modinfo = require("modinfo-graph");

const service = new modinfo.Modinfo();
const found: Promise<modinfo.ModuleInfo> = service.moduleInfo("", "file:///a.ts", "TypeScript");
const refused: Promise<string> = modinfo.moduleInfo("", "file:///a.ts").then(
  ({ sourceMapUrl }) => sourceMapUrl?.text ?? "",
  (error: unknown) => (error instanceof modinfo.ModinfoFault ? error.fault : ""),
);
export { found, refused };
