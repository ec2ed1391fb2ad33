/**
 * Reads regular files alone: a FIFO or a device may never end, and opening one may have effects. So where a
 * path leads is known before it is opened, and is kept: a path is looked at once.
 */

import fs, { type Dirent, type Stats, constants, statSync } from "node:fs";
import { dirname, join } from "node:path";

import { FileFault, unlessThrown } from "../runtime/faults.js";
import { foldersFrom, inherited } from "./by_folder.js";

/** The most bytes of a file, where no other limit is given: 64 MiB. */
export const MAX_BYTES = 64 * 2 ** 20;
/** The first bytes that are asked for of a file without a size, as those in /proc are. */
const FIRST_PART = 2 ** 16;
const decoder = new TextDecoder("utf-8", { fatal: true, ignoreBOM: true });
type Check = (status: Stats) => void;

/** The content of a regular file, checked before and after it is opened. @throws {FileFault | Error} */
export function readRegularFile(path: string, maxBytes = MAX_BYTES, check: Check = requireRegular): Buffer {
  check(statSync(path));
  return readOpened(path, maxBytes, 0, fs, check);
}

/** The text of a regular file, with its byte order mark. @throws {FileFault | Error} also where it isn't UTF-8 */
export function readRegularText(path: string, maxBytes = MAX_BYTES): string {
  const bytes = readRegularFile(path, maxBytes);
  const text = unlessThrown(() => decoder.decode(bytes));
  if (text === undefined) {
    throw new FileFault("Input", "the file is not UTF-8");
  }
  return text;
}

/** The content of a file; `flags` are those besides the ones for reading. @throws {FileFault | Error} */
export function readOpened(
  path: string, maxBytes: number, flags = 0, system: System = fs, check: Check = requireRegular,
): Buffer {
  return withOpened(path, flags, system, (file) => {
    const status = system.fstatSync(file);
    check(status);
    requireAtMost(maxBytes, status.size);
    return readAtMost(file, status.size, maxBytes, system);
  });
}

export function readBeginning(path: string, length: number): string {
  const bytes = Buffer.alloc(length);
  return withOpened(path, 0, fs, (file) => bytes.toString("utf8", 0, fs.readSync(file, bytes, 0, length, 0)));
}

/** Opens a file that by now may be something else: opening doesn't wait for a FIFO's writer. */
function withOpened<T>(
  path: string, flags: number, system: System, use: (file: number) => T,
): T {
  const file = system.openSync(path, constants.O_RDONLY | constants.O_NONBLOCK | constants.O_NOCTTY | flags);
  try {
    return use(file);
  } finally {
    system.closeSync(file);
  }
}

/** Reads to the end, which need not be where the size has it. */
function readAtMost(file: number, size: number, maxBytes: number, { readSync }: System) {
  let bytes = Buffer.allocUnsafe((size || FIRST_PART) + 1);
  let length = 0;
  for (let count = 1; count > 0; length += count) {
    requireAtMost(maxBytes, length);
    bytes = length === bytes.length ? Buffer.concat([bytes], 2 * length) : bytes;
    count = readSync(file, bytes, length, bytes.length - length, null);
  }
  return bytes.subarray(0, length);
}

function requireAtMost(maxBytes: number, length: number) {
  if (length > maxBytes) {
    throw new FileFault("Input", `the file has more than ${maxBytes} bytes`);
  }
}

function requireRegular(status: Stats) {
  if (!status.isFile()) {
    const kind = status.isDirectory() ? "a folder"
      : status.isFIFO() ? "a FIFO" : status.isSocket() ? "a socket" : "a device";
    throw new FileFault("Input", `${kind}, not a regular file`);
  }
}

export type System = Pick<typeof fs, "lstatSync" | "realpathSync" | "readdirSync" | "openSync" | "fstatSync" |
  "readSync" | "closeSync">;

/** What a path leads to, its path without links (empty for nothing), and whether there is a link on the way. */
export type Entry = { kind: "file" | "folder" | "other" | "none", path: string, isLinked: boolean };
/** The most bytes of a package.json or a configuration: 4 MiB. */
export const MAX_CONFIGURATION = 4 * 2 ** 20;
const MAX_NAME = 256;
/** How many paths are kept: names without number must not take memory without end. */
const MAX_ENTRIES = 500_000;
const ROOT: Entry = { kind: "folder", path: "/", isLinked: false };
const NONE: Entry = { kind: "none", path: "", isLinked: false };
const NO_LINK = fs.constants.O_NOFOLLOW ?? 0;

export class RegularFiles {
  /** Whether all that no link leads to is inside. */
  hasAllWithoutLinks = false;
  #entries = new Map<string, Entry>();
  #roots = new Set<string>();
  #isInside: (folder: string) => boolean = () => false;
  /** Folders above a root: their own package.json and configurations count. */
  #above = new Set<string>();

  constructor(private readonly system: System = fs) {}

  /** Adds a folder in which files may be, together with each `node_modules` above it. */
  addProject(path: string) {
    const { path: root } = this.at(path);
    if (root === "" || this.#roots.has(root)) {
      return;
    }
    this.#addRoot(root);
    for (const folder of foldersFrom(dirname(root))) {
      this.#above.add(folder);
      this.addFolder(join(folder, "node_modules"));
    }
  }

  addFolder(path: string) {
    const { kind, path: root } = this.at(path);
    if (kind === "folder") {
      this.#addRoot(root);
    }
  }

  #addRoot(root: string) {
    this.#roots.add(root);
    this.#isInside = inherited<boolean>((folder, isInside) => isInside || this.#roots.has(folder));
  }

  /** Looks at what a path leads to. All paths here are absolute and normal. */
  at(path: string): Entry {
    const known = this.#entries.get(path);
    if (known) {
      return known;
    }
    const last = path.lastIndexOf("/");
    const parent = this.#entries.get(path.slice(0, last));
    let entry = parent ?? ROOT;
    // From above: a long path costs no more than the part of it that is there.
    for (let begin = parent ? last : 0; begin < path.length && path !== "/";) {
      const next = path.indexOf("/", begin + 1);
      const end = next < 0 ? path.length : next;
      if (entry.kind !== "folder" || end - begin > MAX_NAME) {
        return NONE;
      }
      const each = path.slice(0, end);
      entry = this.#entries.get(each) ?? this.#look(entry, each);
      begin = end;
    }
    return entry;
  }

  /** Whether what a path leads to is in no folder that was added. */
  isOutside({ path, isLinked }: Entry): boolean {
    return !((this.hasAllWithoutLinks && !isLinked) || this.#roots.has(path) || this.#isInside(dirname(path)));
  }

  /** The text of a package.json or a configuration, in a folder that was added. @throws {FileFault | Error} */
  read(path: string): string {
    const entry = this.at(path);
    const { kind, path: real } = entry;
    if (kind !== "file") {
      throw new FileFault("Input", kind === "none" ? "no such file" : "not a regular file");
    }
    if (this.isOutside(entry) && !this.#above.has(dirname(real))) {
      throw new FileFault("Input", `outside the project, in ${dirname(real)}`);
    }
    return textOf(readOpened(real, MAX_CONFIGURATION, NO_LINK, this.system));
  }

  /** The sorted names in a folder of a project, without those of links; none where it can't be read. */
  namesIn(path: string, kind: "file" | "folder"): string[] {
    const entry = this.at(path);
    const isRead = entry.kind === "folder" && !this.isOutside(entry);
    const items = isRead && unlessThrown(() => this.system.readdirSync(entry.path, { withFileTypes: true }));
    return (items || []).filter((item) => kindOf(item) === kind).map(({ name }) => name).sort();
  }

  #look(parent: Entry, path: string): Entry {
    if (this.#entries.size > MAX_ENTRIES) {
      this.#entries.clear();
    }
    const entry = unlessThrown(() => this.#found(parent, path)) ?? NONE;
    this.#entries.set(path, entry);
    return entry;
  }

  #found(parent: Entry, path: string): Entry | undefined {
    const { system } = this;
    const own = parent.isLinked ? join(parent.path, path.slice(path.lastIndexOf("/"))) : path;
    const status = system.lstatSync(own, { throwIfNoEntry: false });
    if (!status?.isSymbolicLink()) {
      return status && { kind: kindOf(status), path: own, isLinked: parent.isLinked };
    }
    // The links on the way to this one count too: together they may be too many.
    const real = system.realpathSync.native(path);
    return { kind: kindOf(system.lstatSync(real)), path: real, isLinked: true };
  }
}

function kindOf(status: Stats | Dirent): Entry["kind"] {
  return status.isDirectory() ? "folder" : status.isFile() ? "file" : "other";
}

/** @param bytes in the encoding that their byte order mark names, else in UTF-8 */
function textOf(bytes: Uint8Array) {
  const [first, second] = bytes;
  const isBig = first === 0xfe && second === 0xff;
  const isLittle = first === 0xff && second === 0xfe;
  return new TextDecoder(isBig ? "utf-16be" : isLittle ? "utf-16le" : "utf-8").decode(bytes);
}
