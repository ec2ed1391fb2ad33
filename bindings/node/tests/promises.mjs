/** Waits for what comes later. */

/**
 * The values of an iterable.
 * @template T
 * @param {AsyncIterable<T>} iterable
 * @returns {Promise<T[]>}
 */
export async function all(iterable) {
  const found = [];
  for await (const each of iterable) {
    found.push(each);
  }
  return found;
}

/**
 * What became of each promise: its value, or the reason why it was rejected.
 * @template T
 * @param {Promise<T>[]} promises
 * @returns {Promise<{ value?: T, reason?: any }[]>}
 */
export function settled(promises) {
  return Promise.allSettled(promises);
}
