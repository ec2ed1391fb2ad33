/**
 * Why nothing is known of a file, and texts as messages show them: a file's name may have characters that
 * move a terminal's cursor, begin a line that looks like another message, or turn the direction of a text.
 */

import { ModinfoFault, ProgramEnd } from "modinfo/internal/core/errors.cjs";

/** As it is printed: a name of docs/FORMATS.md or README.md, and where a syntax error is, counted from one. */
export type Fault = { fault: string, message: string, line?: number, column?: number };

/** A file that can't be read or parsed. */
export class FileFault extends Error {
  override readonly name = "FileFault";

  /** @param position from zero */
  constructor(readonly fault: string, message: string, readonly position?: [line: number, character: number]) {
    super(message);
  }
}

/** The fault that an error is which was thrown while a file was read. */
export function faultOf(error: unknown): Fault {
  if (error instanceof FileFault) {
    const { fault, message, position } = error;
    const [line = 0, character = 0] = position ?? [];
    return { fault, message, ...(position && { line: line + 1, column: character + 1 }) };
  }
  if (error instanceof ModinfoFault) {
    const { fault, message, line, column } = error;
    return line === undefined ? { fault, message: `modinfo reports ${fault}` } : { fault, message, line, column };
  }
  if (error instanceof ProgramEnd) {
    return { fault: "Program", message: error.message };
  }
  if ((error as Partial<NodeJS.ErrnoException> | undefined)?.syscall) {
    return { fault: "Input", message: systemMessage(error) };
  }
  throw error;
}

/** @returns what a call returns; nothing where it throws */
export function unlessThrown<T>(call: () => T): T | undefined {
  try {
    return call();
  } catch {
    return undefined;
  }
}

/** The message of a system call without the path, which the caller prints: `ENOENT: no such file or directory`. */
export function systemMessage(error: unknown): string {
  return (error as Error).message.replace(/, [a-z]+(?: '.*')?$/s, "");
}

/** A fault or a warning, as `FILE:LINE:COLUMN: MESSAGE`, without characters that a terminal obeys. */
export function describeFault(file: string, { message, line, column }: Omit<Fault, "fault">): string {
  return `${printable(file)}${line ? `:${line}:${column}` : ""}: ${printable(message)}`;
}

const UNPRINTABLE = /[\p{Cc}\p{Zl}\p{Zp}\p{Bidi_Control}\p{Surrogate}]/gu;
const SHORT = new Map([["\n", "\\n"], ["\r", "\\r"], ["\t", "\\t"]]);

/** A text with its control characters escaped, as `\n`, `\x1b` and `\u{202e}`. */
export function printable(text: string): string {
  return text.replace(UNPRINTABLE, (character) => SHORT.get(character) ?? escaped(character));
}

/** Like `printable`, but leaves line feeds and tabs as they are. */
export const printableLines = (text: string): string => text.replace(/[^\n\t]+/g, printable);

function escaped(character: string) {
  const digits = Number(character.codePointAt(0)).toString(16);
  return digits.length > 2 ? `\\u{${digits}}` : `\\x${digits.padStart(2, "0")}`;
}
