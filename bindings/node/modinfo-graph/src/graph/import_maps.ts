/**
 * Import maps: those of a deno.json, or of the file that its `importMap` names, with the members of its
 * `workspace` (https://docs.deno.com/runtime/fundamentals/configuration/); and those of pages, for the folder
 * of a page.
 */

import { dirname, join } from "node:path";
import { pathToFileURL } from "node:url";

import { inherited, memoized } from "../files/by_folder.js";
import { isPage } from "../files/file_kinds.js";
import { pathOfUrl, urlFrom, urlOfFolder } from "../files/urls.js";
import { Notices, firstIn, membersAt, parseWithComments } from "./package_manifests.js";
import { isPath } from "./names.js";
import { isObject } from "./package_targets.js";
import { scriptsOf } from "./scripts.js";
import type { RegularFiles } from "../files/regular_files.js";

/** Where a name leads by a configuration: paths without what is added to names, or another name. */
export type Configured = { by: "tsconfig" | "importmap", paths: string[], name?: string };
/** By keys, each a URL, or a name where it is none */
type Targets = Map<string, string>;
type ImportMap = { isDeno: boolean, imports: Targets, scopes: [scope: string, imports: Targets][] };
const NAMES = ["deno.json", "deno.jsonc"];
const REGISTRY = /^(?:jsr|npm):/;
const IGNORED = "its import map is ignored";

export class ImportMaps {
  readonly notices = new Notices();

  constructor(private readonly files: RegularFiles) {}

  of(file: string): ImportMap | undefined {
    return file.includes("/node_modules/") ? undefined : this.ofFolder(dirname(file));
  }

  find(specifier: string, importer: string): Configured | undefined {
    const map = this.of(importer);
    if (!map) {
      return undefined;
    }
    const url = pathToFileURL(importer);
    const key = urlOf(specifier, url) ?? specifier;
    const scopes = map.scopes.filter(([scope]) => {
      return scope === url.href || (scope.endsWith("/") && url.href.startsWith(scope));
    });
    const [target] = [...scopes.map(([, each]) => each), map.imports].flatMap((each) => targetIn(each, key) ?? []);
    return target === undefined ? undefined : configuredBy(target);
  }

  private readonly ofFolder = inherited<ImportMap | undefined>((folder, above) => {
    const path = firstIn(folder, NAMES, this.files);
    const own = path ? this.mapAt(path) : this.mapOfPages(folder);
    return own ? withAbove(own, above) : above;
  });

  private mapOfPages(folder: string): ImportMap | undefined {
    const pages = this.files.namesIn(folder, "file").filter(isPage);
    const [first, ...others] = pages.flatMap((name) => this.mapsOfPage(join(folder, name)));
    return first && others.reduce(withAbove, first);
  }

  private mapsOfPage(path: string): ImportMap[] {
    try {
      const text = this.files.read(path);
      const texts = /importmap/i.test(text) ? scriptsOf(text, path).importMaps : [];
      return texts.map((each) => this.mapOf(this.objectOf(JSON.parse(each), path, IGNORED), path));
    } catch (error) {
      this.notices.add(path, `${IGNORED}: ${(error as Error).message}`);
      return [];
    }
  }

  private mapAt(path: string): ImportMap {
    const members = this.membersOf(path);
    const { importMap, workspace } = members;
    const isFile = typeof importMap === "string" && urlFrom(importMap) === undefined;
    const mapPath = isFile ? join(dirname(path), importMap) : path;
    const map = this.mapOf(isFile ? this.membersOf(mapPath) : members, mapPath);
    const folders = Array.isArray(workspace) ? workspace.filter((each) => typeof each === "string") : [];
    folders.forEach((folder) => this.addMember(map, join(dirname(path), folder)));
    return map;
  }

  private addMember(map: ImportMap, folder: string) {
    const path = firstIn(folder, NAMES, this.files);
    const { name, exports }: Record<string, unknown> = path ? this.membersOf(path) : {};
    for (const [subpath, target] of Object.entries(isObject(exports) ? exports : { ".": exports })) {
      const url = typeof target === "string" ? urlOf(target, urlOfFolder(folder)) : undefined;
      if (typeof name === "string" && url !== undefined) {
        map.imports.set(join(name, subpath), url);
      }
    }
  }

  private mapOf({ imports, scopes }: Record<string, unknown>, path: string): ImportMap {
    const base = pathToFileURL(path);
    const all = Object.entries(this.objectOf(scopes, path, `"scopes" is ignored`));
    const read = all.map(([scope, each]): ImportMap["scopes"][number] => {
      return [urlFrom(scope, base)?.href ?? scope, this.targetsOf(each, base, path)];
    });
    return {
      isDeno: !isPage(path),
      imports: this.targetsOf(imports, base, path),
      scopes: read.sort(([one], [other]) => other.length - one.length),
    };
  }

  private targetsOf(imports: unknown, base: URL, path: string): Targets {
    const found: Targets = new Map();
    for (const [key, target] of Object.entries(this.objectOf(imports, path, `"imports" is ignored`))) {
      if (typeof target === "string") {
        // The folder of a page is the one that a server has for its root.
        const name = isPage(path) && target.startsWith("/") ? `.${target}` : target;
        found.set(urlOf(key, base) ?? key, urlOf(name, base) ?? target);
      } else {
        this.notices.add(path, `${JSON.stringify(key)} of "imports" is ignored: not a string`);
      }
    }
    return found;
  }

  /** @param why the beginning of the notice where it is no object */
  private objectOf(value: unknown, path: string, why: string): Record<string, unknown> {
    if (value !== undefined && !isObject(value)) {
      this.notices.add(path, `${why}: not an object`);
    }
    return isObject(value) ? value : {};
  }

  private readonly membersOf = memoized((path: string) => {
    return membersAt(path, parseWithComments, this.files, this.notices);
  });
}

/** A member of a workspace has its own names, and those of the workspace. */
function withAbove({ isDeno, imports, scopes }: ImportMap, above: ImportMap | undefined): ImportMap {
  return {
    isDeno: isDeno || (above?.isDeno ?? false),
    imports: new Map([...above?.imports ?? [], ...imports]),
    scopes: [...scopes, ...above?.scopes ?? []],
  };
}

function urlOf(specifier: string, base: URL): string | undefined {
  return urlFrom(specifier, isPath(specifier) ? base : undefined)?.href;
}

/**
 * The target of a key: of one that is the name itself, else of the longest one that ends in a slash
 * and that the name begins with. A name of `jsr:` or `npm:` has what is below it too.
 */
function targetIn(imports: Targets, name: string): string | undefined {
  const found = [...imports].filter(([key, target]) => {
    return (key.endsWith("/") && name.startsWith(key)) || (REGISTRY.test(target) && name.startsWith(`${key}/`));
  });
  const [best] = found.sort(([one], [other]) => other.length - one.length);
  return imports.get(name) ?? (best && best[1] + name.slice(best[0].length));
}

function configuredBy(target: string): Configured {
  const url = target.startsWith("file:") ? urlFrom(target) : undefined;
  const paths = [url && pathOfUrl(url)].flatMap((path) => path ?? []);
  return { by: "importmap", paths, ...(!target.startsWith("file:") && { name: target }) };
}
