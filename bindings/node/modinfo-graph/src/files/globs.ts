/**
 * Globs of paths: `*` is any characters of a name, `?` one of them, `**` any folders, and `{a,b}` one of
 * several texts. The time of a match is at most the product of the lengths of the glob and the path.
 */

const MOST_GLOBS = 1000;

export class GlobFault extends Error {
  constructor(why: string) {
    super(`invalid glob: ${why}`);
  }
}

/** A glob without a slash is of a name in any folder, else of a path from the current one. @throws {GlobFault} */
export function globMatcher(glob: string): (path: string) => boolean {
  if (glob.startsWith("!")) {
    const why = `a glob that begins with "!" isn't supported; for a name that begins with it, write ./${glob}`;
    throw new GlobFault(`${glob}: ${why}`);
  }
  const path = glob.replace(/^\.\//, "").replace(/\/$/, "");
  const isPath = /\/(?!$)/.test(glob);
  const alternatives = spelledOut(isPath ? path : `**/${path}`, glob);
  return (candidate) => alternatives.some((each) => matchesPath(each, candidate));
}

/** The globs without braces that a path stands for; `glob` is for the message of an error. */
function spelledOut(path: string, glob: string): string[] {
  let found = [""];
  for (const [part, inside] of path.matchAll(/\{([^{}]*)\}|[^{]+|\{/g)) {
    if (part === "{") {
      throw new GlobFault(`${glob}: nested or unclosed braces aren't supported`);
    }
    const texts = inside === undefined ? [part] : inside.split(",");
    found = found.flatMap((before) => texts.map((text) => before + text));
    if (found.length > MOST_GLOBS) {
      throw new GlobFault(`${glob}: braces for more than ${MOST_GLOBS} globs aren't supported`);
    }
  }
  return found;
}

/** Whether a text is what a pattern has: `*` is any characters, `?` one. */
export function matchesName(pattern: string, text: string): boolean {
  return matchesItems([...pattern], [...text], "*", (one, other) => one === "?" || one === other);
}

/** Like `matchesName` in each part of a path; `**` as a part is any folders, and at the end all in a folder. */
export function matchesPath(pattern: string, path: string): boolean {
  const whole = pattern.replace(/(^|\/)\*\*$/, "$1**/*");
  return matchesItems(whole.split("/"), path.split("/"), "**", matchesName);
}

/**
 * Whether items are those of a pattern, in which `any` stands for any number of them. An `any` takes
 * more only where what follows it fails: then none before it needs another try.
 */
export function matchesItems(
  pattern: string[], items: string[], any: string, isSame: (one: string, other: string) => boolean,
) {
  let [at, taken] = [0, 0];
  let last: { at: number, taken: number } | undefined;
  while (taken < items.length) {
    if (pattern[at] === any) {
      last = { at: ++at, taken };
    } else if (at < pattern.length && isSame(pattern[at], items[taken])) {
      [at, taken] = [at + 1, taken + 1];
    } else if (last) {
      last.taken++;
      ({ at, taken } = last);
    } else {
      return false;
    }
  }
  return pattern.slice(at).every((each) => each === any);
}
