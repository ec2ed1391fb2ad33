/** Wrong uses of the package, each of which TypeScript has to refuse; it isn't run. */

import { Modinfo, ModinfoFault, estreeDocument } from "modinfo-graph";
import type { DependencyDescriptor, ModuleDocument, ModuleInfo, Report } from "modinfo-graph";

const modinfo = new Modinfo();
const specifier = "file:///a.ts";

// @ts-expect-error a number of processes is no text
new Modinfo({ jobs: "2" });
// @ts-expect-error no such option
new Modinfo({ threads: 2 });
// @ts-expect-error a fault is made by the package alone
new ModinfoFault("Tree");
// @ts-expect-error a specifier is no option
modinfo.moduleInfo("", { specifier });
// @ts-expect-error a specifier is needed
modinfo.moduleInfo("");
// @ts-expect-error no such media type
modinfo.moduleInfo("", specifier, "typescript");
// @ts-expect-error a text is a string
modinfo.moduleInfo(new Uint8Array(), specifier);
// @ts-expect-error a document isn't an answer
modinfo.analyze({ script: true });
// @ts-expect-error a document is needed
modinfo.analyze();
// @ts-expect-error a number is no document
modinfo.convert(1);
// @ts-expect-error a graph has a root
modinfo.reach({ modules: {} });
// @ts-expect-error an answer is there later
const info: ModuleInfo = modinfo.analyze("{}");
// @ts-expect-error no command
modinfo.find("{}");
// @ts-expect-error a ModuleInfo is an object
modinfo.resolve("{}", { specifier });
// @ts-expect-error a module is needed
modinfo.resolve({});
// @ts-expect-error a graph has paths or entries
modinfo.graph();
// @ts-expect-error no such option
modinfo.graph({ path: ["a.ts"] });
// @ts-expect-error no such option
modinfo.analyze("{}", { timeout: 1 });
// @ts-expect-error no command that reads documents
modinfo.check("{}", { command: "check" });
// @ts-expect-error the command is an option
modinfo.check("{}", "reach");
// @ts-expect-error a number is no document
modinfo.check(1);

// @ts-expect-error a node has a type
estreeDocument({ start: 0, end: 0 }, "", specifier, "Mjs");
// @ts-expect-error a media type is needed
estreeDocument({ type: "Program" }, "", specifier);
// @ts-expect-error what a tree counts has a name
modinfo.analyzeEstree({ type: "Program" }, "", specifier, "Mjs", { offsets: "bytes" });

export function wrong(dependency: DependencyDescriptor, document: ModuleDocument, report: Report): unknown[] {
  return [
    // @ts-expect-error only a report of a fault has a pointer
    report.pointer,
    // @ts-expect-error a valid document has no fault
    report.valid && report.fault.length,
    // @ts-expect-error warnings may be missing
    report.valid && report.warnings.length,
    // @ts-expect-error a check has no document with the fault OutOfMemory
    report.fault === "OutOfMemory",
    // @ts-expect-error a key is either a string or an identifier
    document.program.body.push({ kind: "KeyValue", range: [0, 1], key: { str: "a", ident: "a" }, children: [] }),
    info,
    // @ts-expect-error only a static dependency has a specifier
    dependency.specifier,
    // @ts-expect-error only a dynamic dependency may be a require
    dependency.type === "static" && dependency.kind === "require",
    // @ts-expect-error dependencies may be missing
    info.dependencies.length,
    // @ts-expect-error a source has bytes, and no lines
    document.program.range[0].line,
    // @ts-expect-error no such kind
    document.program.body.filter(({ kind }) => kind === "Import"),
    // @ts-expect-error a call's arguments are needed
    document.program.body.push({ kind: "Call", range: [0, 1], callee: "import" }),
  ];
}
