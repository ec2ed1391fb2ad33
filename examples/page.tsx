/** @jsxImportSource npm:preact@10.22.0 */
/* @jsxImportSourceTypes npm:@types/react@18.3.3 */
/// <reference types="npm:@types/node@20" resolution-mode="import" />
/// <reference lib="dom" />
/// <reference path='./globals.d.ts' />
// @ts-self-types="./page.d.ts"
// @deno-types="./clock.d.ts"
import { Clock } from "./clock.js";
import type { Props } from "./props.ts";
// @ts-types="./sheet.d.ts"
import sheet from "./page.css" with { type: "css" };

/** @typedef {import("./theme.ts").Theme} Theme */
export default function Page({ city }: Props) {
  return (
    <main className={sheet.page}>
      <h1>{city}</h1>
      <Clock city={city} />
    </main>
  );
}

export const preload = () =>
  // @deno-types="./map.d.ts"
  import("./map.js");

//# sourceMappingURL=./page.tsx.map
