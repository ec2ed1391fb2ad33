/** Functions that remember what they returned. */

import { dirname } from "node:path";

/** @returns like the function, which is called once for each key */
export function memoized<Key, Value>(make: (key: Key) => Value): (key: Key) => Value {
  const known = new Map<Key, Value>();
  return (key) => {
    let value = known.get(key);
    if (value === undefined && !known.has(key)) {
      value = make(key);
      known.set(key, value);
    }
    return value as Value;
  };
}

/** @returns an absolute and normal folder and those above it, the nearest first */
export function foldersFrom(folder: string): string[] {
  const all = [folder];
  for (let parent = dirname(folder); parent !== all[all.length - 1]; parent = dirname(parent)) {
    all.push(parent);
  }
  return all;
}

/** What the nearest folder up from one has; `find` is called once for each, null is for none, also above. */
export function nearest<Value>(find: (folder: string) => Value | null | undefined) {
  const of: (folder: string) => Value | undefined = memoized((folder) => {
    const found = find(folder);
    const above = dirname(folder);
    return found === undefined && above !== folder ? of(above) : found ?? undefined;
  });
  return of;
}

/** What folders have that depends on those above; `make` is called once for each folder, after that above it. */
export function inherited<Value>(make: (folder: string, above: Value | undefined) => Value) {
  const of: (folder: string) => Value = memoized((folder) => {
    const above = dirname(folder);
    return make(folder, above === folder ? undefined : of(above));
  });
  return of;
}
