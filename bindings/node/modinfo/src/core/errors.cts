/** The errors of the package, which `import` and `require` share. */

import type { FaultName } from "../types/calls.cjs";
import type { FaultReport } from "../types/check_report.cjs";

/** The message for a document without a report. */
const UNREPORTED =
  "modinfo refuses the document; with the option report the error has the position, and what was expected";

/** A document, or the text of a module, is refused. The message is one line for people. */
export class ModinfoFault extends Error {
  override readonly name = "ModinfoFault";
  readonly fault: FaultName;
  /** Where the call asked for it, but for `OutOfMemory`, `Stack` and a lone surrogate in a text or a specifier. */
  declare readonly report?: FaultReport;
  /** Of `Syntax` and `Defect`, from one. */
  declare readonly line?: number;
  /** Of `Syntax` and `Defect`, from one, in Unicode code points. */
  declare readonly column?: number;

  private constructor(fault: FaultName, message: string, more: Partial<ModinfoFault>) {
    super(message);
    this.fault = fault;
    Object.assign(this, more);
  }

  /** @internal */
  static of(fault: FaultName, message = `${fault}: ${UNREPORTED}`, more: Partial<ModinfoFault> = {}) {
    return new ModinfoFault(fault, message, more);
  }
}

/** The program ended, or couldn't be started; a `Modinfo` was closed before the call; or there is no module. */
export class ProgramEnd extends Error {
  override readonly name = "ProgramEnd";

  constructor(message: string) {
    super(message);
  }
}
