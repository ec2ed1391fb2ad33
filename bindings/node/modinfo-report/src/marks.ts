/** The ranges of a module's rows as marks in its text. */

import type { Fault } from "modinfo-graph/internal/runtime/faults.js";
import type { Row } from "./rows.js";

export interface Mark {
  /** In UTF-16 units */
  from: number;
  to: number;
  /** The row's index */
  row: number;
  /**
   * The row's; `pragma` for the types that a comment names, `fault` for the position of a syntax error, which has
   * the row -1.
   */
  kind: string;
}

/**
 * @returns by where they begin, a mark before those inside of it
 * @throws {RangeError} the rows are those of another text
 */
export function marksOf(text: string, rows: Row[]): Mark[] {
  const ranges = rows.flatMap(({ kind, range, types }, row) => [
    { range, row, kind },
    ...(types ? [{ range: types.range, row, kind: "pragma" }] : []),
  ]);
  ranges.sort(({ range: [one] }, { range: [other] }) => one[0] - other[0] || one[1] - other[1]);
  const [startOf, endOf] = [offsetsIn(text), offsetsIn(text)];
  const marks = ranges.map(({ range: [start, end], row, kind }) => {
    return { from: startOf(start), to: endOf(end), row, kind };
  });
  return marks.sort((one, other) => one.from - other.from || other.to - one.to);
}

/**
 * @returns the character at the position of a syntax error, nothing at the end of a line; none for other
 *   faults
 * @throws {RangeError} the text has no such position
 */
export function faultMarks(text: string, { line, column = 1 }: Fault): Mark[] {
  if (line === undefined) {
    return [];
  }
  const from = offsetsIn(text)([line - 1, column - 1]);
  const [character] = /^.?/u.exec(text.slice(from, from + 2)) ?? [""];
  return [{ from, to: from + character.length, row: -1, kind: "fault" }];
}

/**
 * Finds offsets in a text, ascending ones quickest. Its lines end at U+000A, its characters are code points.
 * @returns the offset in UTF-16 units, by a line and a character, both from zero; throws a `RangeError` where the
 *   text has no such position
 */
export function offsetsIn(text: string): (position: [line: number, character: number]) => number {
  const starts = [0];
  for (let at = text.indexOf("\n"); at >= 0; at = text.indexOf("\n", at + 1)) {
    starts.push(at + 1);
  }
  let last = { line: 0, character: 0, offset: 0 };
  return ([line, character]) => {
    const end = (starts[line + 1] ?? text.length + 1) - 1;
    const isAfter = last.line === line && last.character <= character;
    let at = isAfter ? last : { line, character: 0, offset: starts[line] };
    while (at.character < character && at.offset < end) {
      const units = Number(text.codePointAt(at.offset)) > 0xffff ? 2 : 1;
      at = { line, character: at.character + 1, offset: at.offset + units };
    }
    if (line >= starts.length || at.character < character) {
      throw new RangeError(`the text has no line ${line} with a character ${character}`);
    }
    last = at;
    return at.offset;
  };
}
