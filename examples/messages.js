// The messages of a site in the language of its reader, and what formats them.
import { basename } from "node:path";
import english from "./messages/en.json" with { type: "json" };

const loaded = new Map([["en", english]]);

/** The messages in a language, or in English where they can't be loaded. */
export async function messages(language) {
  if (!loaded.has(language)) {
    try {
      const { default: found } = await import(`./messages/${language}.json`, { with: { type: "json" } });
      loaded.set(language, found);
    } catch {
      loaded.set(language, english);
    }
  }
  return loaded.get(language);
}

/** A function that formats a message by a plugin. */
export function formatter(kind, options = {}) {
  const load = async () => {
    const { pathOf } = await import("./registry.js");
    return (await import("./plugins/" + pathOf(kind) + ".js")).default;
  };
  let plugin = null;
  return async (message, values) => {
    plugin ??= await load();
    const style = options.style && await import(options.style, { with: { type: options.type } });
    return plugin(message, values, style?.default ?? "");
  };
}

/* Pages that were written before `with` took the place of `assert`. */
export const legacy = {
  page: (name) => import(`./pages/${basename(name)}`, { assert: { type: "json" }, ...legacy.options }),
  styles: () => import("./styles/größe.css", { "with": { "type": "css" } }),
  async nested(name) {
    return await import((await import("./index.json", { with: {} })).default[name], undefined);
  },
};

export { negotiate } from "./negotiate.js";
