/**
 * Files of the machine whose results differ from those of the other parsers, by the reason. In each the count says
 * how many files of a file's name are known; a file that isn't found is no fault.
 *
 * @typedef {object} Known
 * @property {string} reason
 * @property {RegExp} path of the files
 * @property {number} count the most files
 */

/** @type {Known[]} */
export const KNOWN = [
  {
    reason: "Types in a file of JavaScript, which TypeScript's parser reads: types are read in TypeScript alone.",
    path: /\/(?:babel-plugin-transform-charcodes|charcodes)\/src\/index\.js$/,
    count: 2,
  },
];
