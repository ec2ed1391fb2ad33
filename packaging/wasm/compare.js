/* Calls the WebAssembly module on cases, and compares each answer with the expected one. Runs in node, in browsers and
 * in JavaScriptCore's shell, which has neither TextDecoder nor console. */
"use strict";

/**
 * @param {Uint8Array} module
 * @param {Uint8Array} cases each has the number of the command, or 255 for a text with its specifier; the lengths of
 *   what is handed in, the status and the length of the answer, as numbers of 32 bits; and these bytes
 * @returns {string} a line
 */
function compare(module, cases) { // eslint-disable-line no-unused-vars
  const { exports: own } = new WebAssembly.Instance(new WebAssembly.Module(module));
  const numbers = new DataView(cases.buffer, cases.byteOffset, cases.byteLength);
  const differing = [];
  let count = 0;
  for (let at = 0; at < cases.length; count++) {
    const [command, length, specifier, status, wanted] = [0, 4, 8, 12, 16].map((more) => numbers.getUint32(at + more, true));
    at += 20;
    const address = own.reserve(length + specifier);
    new Uint8Array(own.memory.buffer).set(cases.subarray(at, at + length + specifier), address);
    at += length + specifier;
    const got = command === 255 ? own.analyze_source(length, specifier, 0) : own.run(command, length);
    const answer = new Uint8Array(own.memory.buffer, own.answer(), own.answer_length());
    const isSame = got === status && answer.length === wanted && answer.every((byte, index) => byte === cases[at + index]);
    if (!isSame) {
      differing.push(count);
    }
    at += wanted;
  }
  return `${count} compared, ${differing.length} differ: ${differing.slice(0, 20).join(" ")}`;
}
