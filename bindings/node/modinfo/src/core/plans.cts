/** What the package's functions do: each reads its arguments at once, and returns what is left to do. */

import { ModinfoFault } from "./errors.cjs";
import { estreeDocument } from "./estree_document.cjs";
import { checkKnown, checkedForm, jsonOf, urlText, utf8Of } from "./input.cjs";
import type {
  CallOptions, CheckOptions, EstreeNode, EstreeOptions, FaultReport, MediaType, ModuleDocument, ModuleGraph,
  ModuleInfo, Report, ReportOptions, Url,
} from "../types/calls.cjs";
import type { Core, Result } from "./instance.cjs";

/** What is left to do. */
export type Plan<Value> = (core: Core) => Value;

/** The numbers of the commands and of their checks, as include/modinfo.h has them. */
export const NUMBERS = new Map([
  ["analyze", [0, 3]], ["analyze --estree", [6, 7]], ["analyze --source", [8, 9]], ["convert", [1, 4]],
  ["reach", [2, 5]],
]);

/** As include/modinfo.h has them, from 1 on; 0 is the media type of the specifier. */
export const MEDIA_TYPES = [
  "JavaScript", "Jsx", "Mjs", "Cjs", "TypeScript", "Mts", "Cts", "Dts", "Dmts", "Dcts", "Tsx", "Json", "Other",
];

/** What a report expects of a text with a syntax error begins so where a message of another form follows. */
const VALID = "valid syntax: ";

export const plans = {
  moduleInfo(
    text: string, specifier: string | Url, mediaType?: MediaType, options?: CallOptions,
  ): Plan<ModuleInfo> {
    checkKnown(options, ["signal"]);
    const source = sourceOf(text, specifier, mediaType);
    return (core) => {
      const result = source.analyze(core);
      if (result.isAnswer) {
        return JSON.parse(result.text) as ModuleInfo;
      }
      const isReported = result.text !== "OutOfMemory";
      throw faultWith(isReported ? JSON.parse(answerOf(source.check(core))) : undefined, result);
    };
  },

  checkSource(
    text: string, specifier: string | Url, mediaType?: MediaType, options?: CallOptions,
  ): Plan<Report> {
    checkKnown(options, ["signal"]);
    const source = sourceOf(text, specifier, mediaType);
    return (core) => JSON.parse(answerOf(source.check(core)));
  },

  analyze(document: ModuleDocument | string | Uint8Array, options?: ReportOptions): Plan<ModuleInfo> {
    return documentPlan("analyze", document, options);
  },

  analyzeEstree(
    tree: EstreeNode, text: string, specifier: string | Url, mediaType: MediaType,
    options: EstreeOptions & ReportOptions = {},
  ): Plan<ModuleInfo> {
    const url = urlText(text, specifier);
    checkKnown(options, ["comments", "offsets", "report", "signal"]);
    const { comments, offsets, ...others } = options;
    const document = estreeDocument(tree, text, url, mediaType, { comments, offsets });
    return documentPlan("analyze --estree", document, others);
  },

  convert(information: object | string | Uint8Array, options?: ReportOptions): Plan<ModuleInfo> {
    return documentPlan("convert", information, options);
  },

  reach(graph: ModuleGraph | string | Uint8Array, options?: ReportOptions): Plan<string[]> {
    return documentPlan("reach", graph, options);
  },

  check(document: object | string | Uint8Array, options: CheckOptions = {}): Plan<Report> {
    checkKnown(options, ["command", "signal"]);
    const { command = "analyze" } = options;
    const [, number] = NUMBERS.get(command) ?? [];
    if (number === undefined) {
      throw new TypeError(`command must be one of ${[...NUMBERS.keys()].join(", ")}, not ${String(command)}`);
    }
    const json = checkedForm(jsonOf(document));
    return (core) => JSON.parse(answerOf(core.run(number, json)));
  },
};

/** @throws {TypeError} the media type is no string */
function sourceOf(text: string, specifier: unknown, mediaType: unknown): Record<string, Plan<Result>> {
  const url = urlText(text, specifier);
  if (mediaType !== undefined && typeof mediaType !== "string") {
    throw new TypeError(`mediaType must be a string, not ${String(mediaType)}: options follow it`);
  }
  const number = mediaType === undefined ? 0 : MEDIA_TYPES.indexOf(mediaType ?? "") + 1;
  if (number > 0 || mediaType === undefined) {
    return {
      analyze: (core) => core.runSource("analyze_source", text, url, number),
      check: (core) => core.runSource("check_source", text, url, number),
    };
  }
  // The report on a document names what there is instead.
  const document = jsonOf({ specifier: url, source: text, mediaType });
  const [analyze, check] = NUMBERS.get("analyze --source") as number[];
  return { analyze: (core) => core.run(analyze, document), check: (core) => core.run(check, document) };
}

function documentPlan<Value>(command: string, document: unknown, options?: ReportOptions): Plan<Value> {
  checkKnown(options, ["report", "signal"]);
  const hasReport = options?.report;
  const json = hasReport ? checkedForm(jsonOf(document)) : utf8Of(jsonOf(document));
  const [number, check] = NUMBERS.get(command) as number[];
  return (core) => {
    const result = core.run(number, json);
    if (result.isAnswer) {
      return JSON.parse(result.text);
    }
    const isReported = hasReport && result.text !== "OutOfMemory";
    throw faultWith(isReported ? JSON.parse(answerOf(core.run(check, json))) : undefined, result);
  };
}

/** @throws {ModinfoFault} */
function answerOf(result: Result): string {
  if (!result.isAnswer) {
    throw ModinfoFault.of(result.text);
  }
  return result.text;
}

function faultWith(report: Report | undefined, { text }: Result & { isAnswer: false }) {
  if (!report?.fault) {
    return ModinfoFault.of(text);
  }
  if (report.fault !== "Syntax" && report.fault !== "Defect" || !report.at) {
    return ModinfoFault.of(report.fault, describeReport(report), { report });
  }
  const message = messageOf(report.expected);
  return ModinfoFault.of(report.fault, message, { line: report.at.line + 1, column: report.at.column + 1 });
}

/** The parser's message of a syntax error or a defect, by what the report on the text expects. */
export function messageOf(expected: string): string {
  return expected.startsWith(VALID) ? expected.slice(VALID.length) : `expected ${expected}`;
}

/** A report in one line for people, as `Tree at /program: expected a member `body``. */
function describeReport(report: FaultReport): string {
  return `${report.fault} at ${positionOf(report)}: expected ${report.expected}`;
}

/** Where a fault is; of `analyze --estree` a fault of the source has a range without a pointer. */
function positionOf({ pointer, range, at }: FaultReport) {
  if (at) {
    return `line ${at.line + 1}, column ${at.column + 1}`;
  }
  if (range && pointer === undefined) {
    return `bytes ${range.join(" to ")} of the source`;
  }
  return pointer || "the whole document";
}
