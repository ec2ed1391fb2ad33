"""The crates of the repository, their sources, and whether a built file is as new as its sources.

    python3 tools/sources.py is-current CRATE NAME
    python3 tools/sources.py origin CRATE NAME
    python3 tools/sources.py below CRATE ..

The first exits with status 0 where build/NAME was made from the current sources of the crate, and else with 1.
The second prints the stamp beside build/NAME, `proved` or `unchecked` and the hash of the sources. It exits with
status 1 where there is no stamp of this file and of the current sources. The third prints the lines of crates.txt of
the crates, and of all crates below them, for a repository that takes copies of them.
"""

import hashlib
import os
import re
import subprocess
import sys
from collections.abc import Iterable, Iterator
from contextlib import suppress
from dataclasses import dataclass
from pathlib import Path

ROOT = Path(__file__).resolve().parent.parent
CRATES_FILE = "crates.txt"
PARTS = ("src", "specs", "proofs")
PROVED, UNCHECKED = "proved", "unchecked"


class BuildError(Exception):
    """An error of a build, with its reason as the message."""


@dataclass(frozen=True)
class Crate:
    """A crate of the repository, and the libraries that its line of crates.txt names after the colon."""

    name: str
    line: str
    libraries: tuple[str, ...]

    @property
    def folder(self) -> Path:
        return ROOT / "crates" / self.name

    @property
    def is_program(self) -> bool:
        return (self.folder / "src/main.rt").exists()

    @property
    def is_static_library(self) -> bool:
        return re.match(r"\w+ +staticlib\b", self.line) is not None

    def parts(self, names: Iterable[str] = PARTS) -> list[str]:
        """Its folders of sources, or those of these names, relative to the repository."""
        return [f"crates/{self.name}/{name}" for name in names if (self.folder / name).is_dir()]

    def files(self, *names: str) -> list[str]:
        """Its sources, or those in the folders of these names, relative to the repository."""
        paths = [path for part in self.parts(names or PARTS) for path in walk(part)]
        return [path for path in paths if os.path.isfile(ROOT / path) and not os.path.islink(ROOT / path)]

    def size(self, *names: str) -> int:
        """The bytes of its sources, or of those in the folders of these names."""
        return sum(os.lstat(ROOT / path).st_size for path in self.files(*names))

    def checksum(self, *names: str) -> str:
        """A checksum of the names and the bytes of its sources, or of those in the folders of these names."""
        whole = hashlib.sha256()
        for path in sorted(self.files(*names), key=os.fsencode):
            digest = hashlib.sha256((ROOT / path).read_bytes()).hexdigest()
            whole.update(digest.encode() + b"  " + os.fsencode(path) + b"\n")
        return f"{whole.hexdigest()}  -"


def walk(part: str) -> Iterator[str]:
    """Yields a folder and all that is in it, or a file, relative to the repository. Follows no links."""
    yield part
    for folder, folders, files in os.walk(ROOT / part):
        below = os.path.relpath(folder, ROOT)
        yield from (f"{below}/{name}" for name in [*folders, *files])


def tracked(*patterns: str) -> list[str]:
    """The names of the files of the repository that git knows or doesn't ignore: all, or those of some patterns."""
    listing = ["git", "-C", str(ROOT), "ls-files", "--cached", "--others", "--exclude-standard", *patterns]
    names = subprocess.run(listing, stdout=subprocess.PIPE, text=True, check=True).stdout.splitlines()
    return [name for name in names if (ROOT / name).is_file()]


def read_crates() -> dict[str, Crate]:
    crates = {}
    for text in (ROOT / CRATES_FILE).read_text().splitlines():
        line = text.strip().partition("#")[0]
        before, colon, after = line.partition(":")
        if colon:
            name = before.split(" ")[0]
            crates[name] = Crate(name, line, tuple(after.split()))
    return crates


class Closure:
    """A crate and all crates below it, each after those below it."""

    def __init__(self, target: str) -> None:
        self._known = read_crates()
        self._below: dict[str, list[Crate]] = {}
        self._add(target)
        self.crate = self._known[target]
        self.crates = [self._known[name] for name in self._below]

    def _add(self, name: str) -> None:
        if name in self._below:
            return
        if name not in self._known:
            raise BuildError(f"{CRATES_FILE} has no crate {name}")
        below: dict[str, Crate] = {}
        self._below[name] = []
        for library in self._known[name].libraries:
            if self.is_own(library):
                self._add(library)
                below |= {crate.name: crate for crate in [*self._below[library], self._known[library]]}
        # Moves it after those below it.
        del self._below[name]
        self._below[name] = list(below.values())

    def is_own(self, library: str) -> bool:
        """Whether a library is of the repository, not of the kit."""
        return library in self._known

    def below(self, crate: Crate) -> list[Crate]:
        """All crates that a crate needs, directly or not."""
        return self._below[crate.name]

    def parts(self) -> list[str]:
        return [CRATES_FILE, *(part for crate in self.crates for part in crate.parts())]

    def listing(self) -> bytes:
        """The folders and files of the sources, relative to the repository, each followed by a zero byte."""
        paths = [f"crates/{crate.name}" for crate in self.crates]
        paths += [path for part in self.parts() for path in walk(part)]
        return b"".join(path + b"\0" for path in sorted(map(os.fsencode, paths)))

    def checksum(self) -> str:
        """A checksum of the sources: of each crate's line of crates.txt, and of its files."""
        lines = [f"{crate.line} {crate.checksum()}\n" for crate in self.crates]
        return hashlib.sha256("".join(lines).encode()).hexdigest()

    def is_current(self, name: str) -> bool:
        """Whether build/NAME was made from the current sources.

        Where it was, sets its time to now, so that `modinfo` only needs to compare times.
        """
        made, sources, looked = (ROOT / f"build/{name}{ending}" for ending in ("", ".sources", ".looked"))
        if not made.exists() or not sources.exists():
            return False
        with suppress(OSError):
            looked.touch()
        if sources.read_bytes() != self.listing() or self._has_newer(made):
            return False
        with suppress(OSError):
            set_time(made, looked)
        return True

    def _has_newer(self, made: Path) -> bool:
        time = made.stat().st_mtime_ns
        return any(os.lstat(ROOT / path).st_mtime_ns > time for part in self.parts() for path in walk(part))


def stamp_file(file: Path, kind: str, sources: str) -> None:
    """Writes the stamp of a built file beside it: whether it is proved, the hash of its sources, and its own."""
    file.with_name(f"{file.name}.origin").write_text(f"{kind}\nsources {sources}\nfile {file_checksum(file)}\n")


def file_checksum(file: Path) -> str:
    return hashlib.sha256(file.read_bytes()).hexdigest()


def origin(file: Path, sources: str) -> str | None:
    """What the stamp of a built file says: `proved` or `unchecked`. None where it has no stamp, or the stamp is of
    other bytes or sources."""
    stamp = file.with_name(f"{file.name}.origin")
    if not file.exists() or not stamp.exists():
        return None
    kind, *rest = stamp.read_text().splitlines()
    is_right = rest == [f"sources {sources}", f"file {file_checksum(file)}"]
    return kind if kind in (PROVED, UNCHECKED) and is_right else None


def print_origin(closure: Closure, name: str) -> int:
    sources = closure.checksum()
    kind = origin(ROOT / "build" / name, sources)
    print(f"{kind} {sources}" if kind else f"build/{name} has no stamp of its bytes and sources")
    return 0 if kind else 1


def print_below(names: list[str]) -> int:
    lines = [crate.line for name in names for crate in Closure(name).crates]
    print("\n".join(dict.fromkeys(lines)))
    return 0


def set_time(path: Path, reference: Path) -> None:
    """Sets the time of a file to that of another one."""
    time = reference.stat()
    os.utime(path, ns=(time.st_atime_ns, time.st_mtime_ns))


def main() -> int:
    try:
        match sys.argv[1:]:
            case ["is-current", crate, name]:
                return 0 if Closure(crate).is_current(name) else 1
            case ["origin", crate, name]:
                return print_origin(Closure(crate), name)
            case ["below", _, *_]:
                return print_below(sys.argv[2:])
            case _:
                print("usage: tools/sources.py is-current | origin CRATE NAME, or below CRATE ..", file=sys.stderr)
                return 2
    except (BuildError, OSError) as error:
        print(f"tools/sources.py: {error}", file=sys.stderr)
        return 1


if __name__ == "__main__":
    sys.exit(main())
