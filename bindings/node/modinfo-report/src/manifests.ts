/** The versions of packages, from their package.json. */

import { dirname } from "node:path";

import { nearest } from "modinfo-graph/internal/files/by_folder.js";
import { RegularFiles } from "modinfo-graph/internal/files/regular_files.js";
import { realPath } from "modinfo-graph/internal/files/urls.js";
import { PackageManifests } from "modinfo-graph/internal/graph/package_manifests.js";
import { isObject } from "modinfo-graph/internal/graph/package_targets.js";

/** The members of a package.json that name other packages. */
const MEMBERS = ["dependencies", "peerDependencies", "optionalDependencies", "devDependencies"];

/**
 * Returns a function that finds the version of a package, else the range in the user's package.json.
 * @returns takes a file of the package, where it is installed, and a file that names the package
 */
export function versions(): (name: string, file: string | undefined, user: string) => string | undefined {
  const files = new RegularFiles();
  files.hasAllWithoutLinks = true;
  const manifests = new PackageManifests(files);
  /** The members of the nearest package.json of a folder that has a name, else of the root's. */
  const membersOf = nearest((folder) => {
    const manifest = manifests.of(folder);
    return manifest?.name || folder === dirname(folder) ? manifest?.members : undefined;
  });
  return (name, file, user) => {
    const installed = file && textIn(membersOf(dirname(file)), "version");
    const listing = installed ? undefined : membersOf(dirname(realPath(user) ?? user));
    const listed = MEMBERS.map((member) => textIn(listing?.[member], name));
    return installed || listed.find((each) => each !== undefined);
  };
}

function textIn(value: unknown, name: string): string | undefined {
  const member = isObject(value) && Object.hasOwn(value, name) ? value[name] : undefined;
  return typeof member === "string" ? member : undefined;
}
