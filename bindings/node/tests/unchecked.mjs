/**
 * A value that the types of the package refuse, as a caller in JavaScript may pass it.
 * @param {unknown} value
 * @returns {any}
 */
export function unchecked(value) {
  return value;
}
