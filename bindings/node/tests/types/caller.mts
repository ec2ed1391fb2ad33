/** A caller of the package, whose types are checked, without those of the DOM and of node; it isn't run. */

import { Modinfo, ModinfoFault, ProgramEnd, estreeDocument, moduleInfo } from "modinfo-graph";
import type {
  CheckOptions, DependencyDescriptor, DocumentFault, DocumentNode, EstreeNode, FaultName, FaultReport, Graph, GraphOptions,
  MediaType, ModuleDocument, ModuleGraph, ModuleInfo, PositionRange, ReferenceKind, Report, Resolution,
  ResolvedModuleInfo, Signal, Url, ValidReport,
} from "modinfo-graph";

const modinfo = new Modinfo({ program: "build/modinfo", jobs: 4 });
const specifier = "file:///a.ts";
const mediaType: MediaType = "TypeScript";
const text: string = 'import "./b.ts";';

declare const signal: Signal;
const url: Url = { href: specifier };

const info: ModuleInfo = await modinfo.moduleInfo(text, specifier, mediaType);
await modinfo.moduleInfo(text, url, undefined, { signal });
await moduleInfo(text, specifier);

function textOf(dependency: DependencyDescriptor): string | undefined {
  if (dependency.type === "static") {
    const range: PositionRange = dependency.specifierRange;
    const [[line, character]] = range;
    return `${dependency.specifier} ${dependency.sideEffect ?? false} ${line + character}`;
  }
  const { argument } = dependency;
  if (Array.isArray(argument)) {
    return argument.map((part) => (part.type === "string" ? part.value : "*")).join("");
  }
  return argument;
}

const texts: (string | undefined)[] = (info.dependencies ?? []).map(textOf);
for (const { importAttributes } of info.dependencies ?? []) {
  const type: string | null | undefined =
    importAttributes === undefined || importAttributes === "unknown" ? null : importAttributes.known["type"];
  texts.push(type ?? undefined);
}
for (const reference of info.tsReferences ?? []) {
  texts.push(reference.type === "types" ? reference.resolutionMode : reference.text);
}

const document: ModuleDocument = {
  specifier, mediaType: "TypeScript", source: text,
  program: {
    range: [0, 16],
    body: [
      { kind: "ImportDecl", range: [0, 16], src: { value: "./b.ts", range: [7, 15] } },
      { kind: "Other", range: [16, 16] },
    ],
  },
  leading: [{ pos: 0, comments: [] }],
};
function kinds(nodes: DocumentNode[]): string[] {
  return nodes.flatMap((node) => [
    node.kind, ...(node.kind === "Call" ? [node.callee] : []), ...kinds(node.children ?? []),
  ]);
}
kinds(document.program.body);

const infos: ModuleInfo[] = [
  await modinfo.analyze(document),
  await modinfo.analyze(JSON.stringify(document)),
  await modinfo.analyze(new Uint8Array([0x7b])),
  await modinfo.convert({ dependencies: [] }),
  await modinfo.convert("{}"),
];
const graph: ModuleGraph = { root: "a", modules: { a: infos[0] ?? {} } };
const keys: string[] = await modinfo.reach(graph);
keys.push(...(await modinfo.reach('{"root":"a","modules":{}}')));

function textsOf(report: Report): string[] {
  if (!report.valid) {
    const wrong: FaultReport = report;
    const name: DocumentFault = wrong.fault;
    const numbers = [...(wrong.range ?? []), wrong.at?.line, wrong.at?.column, wrong.at?.offset];
    return [name, wrong.pointer ?? wrong.other ?? numbers.join(), wrong.expected];
  }
  const sound: ValidReport = report;
  return [...(sound.warnings ?? []).map(({ pointer, says }) => `${pointer}: ${says}`), `${sound.more ?? 0} more`];
}
const options: CheckOptions = { command: "reach" };
const reports: Report[] = [
  await modinfo.check(document),
  await modinfo.check(JSON.stringify(document), { command: "analyze" }),
  await modinfo.check(new Uint8Array([0x7b]), {}),
  await modinfo.check({ nothing: true }, options),
];
texts.push(...reports.flatMap(textsOf), ...reports.flatMap((report) => report.fault ?? []));

function fileOf(resolution: Resolution): string | undefined {
  switch (resolution.class) {
    case "file":
      return resolution.file ?? resolution.types;
    case "package":
      return resolution.file ?? resolution.package;
    case "asset":
      return resolution.file;
    default:
      return undefined;
  }
}
const resolved: ResolvedModuleInfo = await modinfo.resolve(info, {
  specifier: url, types: false, tsconfig: "tsconfig.json", conditions: ["browser"], signal,
});
texts.push(...(resolved.dependencies ?? []).map((each) => fileOf(each.resolved)));
texts.push(resolved.selfTypesSpecifier && fileOf(resolved.selfTypesSpecifier.resolved));
const graphOptions: GraphOptions = { entries: ["src/a.ts"], exclude: ["*.test.ts"], gitignore: true, types: true };
const files: Graph = await modinfo.graph({ ...graphOptions, paths: [url], all: true, jobs: 2, signal });
for (const { specifier: from, references, fault } of files.modules) {
  const words: ReferenceKind[] = references.map(({ kind }) => kind);
  texts.push(from, fault?.message, ...words, ...references.map((each) => each.specifier ?? fileOf(each.resolved)));
}
await modinfo.analyze(document, { signal });

const tree = { type: "Program", range: [0, 16] as [number, number], body: [] };
const comments: EstreeNode[] = [{ type: "Line", start: 0, end: 0 }];
const json: string = estreeDocument(tree, text, url, "Mjs", { comments, offsets: "utf8" });
infos.push(await modinfo.analyzeEstree(tree, text, specifier, mediaType, { comments, report: true, signal }));
reports.push(await modinfo.check(json, { command: "analyze --estree" }));

try {
  await modinfo[Symbol.asyncDispose]();
} catch (error) {
  if (error instanceof ModinfoFault) {
    const fault: FaultName = error.fault;
    const place: (number | undefined)[] = [error.line, error.column];
    texts.push(fault, ...place.map(String));
  } else if (error instanceof ProgramEnd) {
    texts.push(error.message);
  }
}
const closed: void = await modinfo.close();
export { closed, keys, texts };
