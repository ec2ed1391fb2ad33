// @ts-self-types="./basket.d.ts"
/**
 * What a customer is about to buy.
 * @import { Article, Price } from "./articles.ts"
 * @import * as money from './money.d.ts'
 * @import Currency from "./currency.cjs" with { "resolution-mode": "require" }
 */

// @deno-types="npm:@types/lodash@4.17.7"
import lodash from "npm:lodash@4.17.21";
// Prices are kept in the smallest coin.
// @ts-types='./größe.d.ts'
import { größe } from "./größe.js";
// @ts-types="./dates.d.ts"
// Only the last comment before an import says its types, so this one has none.
import { today } from "./dates.js";
/* @deno-types=./vat.d.mts */
export { rates } from "./vat.mjs";

/**
 * @param {Article[]} articles
 * @param {(import("./discounts.ts").Discount | import('./vouchers.ts').Voucher)[]} reductions
 * @returns {Promise<Price>} the sum, `{import("./money.d.ts")` being no import
 */
export async function total(articles, reductions) {
  const { round } = await /* @ts-types="./round.d.ts" */ import("./round.js");
  const sum = lodash.sumBy(articles, "price");
  return round(reductions.reduce((rest, reduction) => reduction.take(rest, today()), sum));
}

/** @type {Map<Currency, import('./money.d.ts', { with: { 'resolution-mode': 'import' } }).Rate>} */
export const exchange = new Map();

/* @type {import("./lists.ts").List} stands in no JSDoc comment, which begins with /**. */
export const sizes = größe(exchange);
