/** The module as text that compresses as well as its bytes do, which bundle.mjs writes. */

/** How many characters there are, and how many of them are a byte each; any other one begins a pair. */
export const CHARACTERS = 92;
export const SINGLES = 90;
/** Hexadecimal digits of all bytes, frequent ones first, with which a text begins. */
const ORDER_LENGTH = 512;

/** The number of a character: from `#` to `~`, with `!` in place of the backslash. */
function numberAt(text: string, at: number) {
  const code = text.charCodeAt(at);
  return (code === 0x21 ? 0x5c : code) - 0x23;
}

/** The bytes of a text. */
export function bytesOfText(text: string): Uint8Array {
  const digits = text.slice(0, ORDER_LENGTH).match(/../g) ?? [];
  const order = Uint8Array.from(digits, (pair) => parseInt(pair, 16));
  const bytes = new Uint8Array(text.length);
  let length = 0;
  for (let at = ORDER_LENGTH; at < text.length; at++) {
    const number = numberAt(text, at);
    const pairs = number - SINGLES;
    bytes[length++] = order[pairs < 0 ? number : SINGLES + pairs * CHARACTERS + numberAt(text, ++at)];
  }
  return bytes.slice(0, length);
}
