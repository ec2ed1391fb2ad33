#!/usr/bin/env python3
"""Measures what the example of a cluster takes for real files by two workers, and what a million modules
cost.

usage: build/cluster/bin/python bench/cluster.py [--files N] [--modules N]
example: tools/setup cluster && build/cluster/bin/python bench/cluster.py --files 500 --modules 100000

  --files N    files of Debian's node packages, evenly spread; else 5000
  --modules N  modules of the table that is asked; else 1000000

Prints for each step the seconds on the clock, and those of the processors: of this process, with the client,
the scheduler and SQLite, and of the workers. Dask's start and end are measured by a run of one file, and
taken off the figures below. The table that is asked has the rows of these files again and again under other
names; the package that most modules import is asked for, and one that few do.
"""

import argparse
import io
import resource
import sys
import tempfile
import time
from collections.abc import Callable, Iterable, Iterator
from contextlib import closing, redirect_stderr, redirect_stdout
from itertools import islice
from pathlib import Path
from typing import NamedTuple

ROOT = Path(__file__).resolve().parent.parent
EXAMPLE = ROOT / "examples/cluster"
sys.path[:0] = [str(EXAMPLE), str(ROOT / "tools")]

from building import print_help  # noqa: E402

# Also where the package is missing.
if __name__ == "__main__" and print_help():
    sys.exit(0)

import analyze  # noqa: E402
import modinfo  # noqa: E402
import work  # noqa: E402
from inputs import ENDINGS, of_path  # noqa: E402
from store import Store  # noqa: E402
from work import Module, Row  # noqa: E402

NODE_FILES = Path("/usr/share/nodejs")
TOGETHER = 1000
WHO = "SELECT module, line FROM dependencies WHERE package = ?"
MILLION = 1_000_000


class Seconds(NamedTuple):
    """On the clock, of this process, and of those that it has waited for."""

    clock: float
    own: float
    workers: float


def seconds() -> Seconds:
    used = [resource.getrusage(who) for who in (resource.RUSAGE_SELF, resource.RUSAGE_CHILDREN)]
    return Seconds(time.monotonic(), *(each.ru_utime + each.ru_stime for each in used))


def measure(name: str, step: Callable[[], object]) -> Seconds:
    before = seconds()
    step()
    took = Seconds(*(after - earlier for after, earlier in zip(seconds(), before)))
    print(f"{name:32} {took.clock:8.2f} {took.own:8.2f} {took.workers:8.2f}", flush=True)
    return took


def run(store: Path, paths: list[str]) -> None:
    """A run of the example by two workers."""
    with redirect_stdout(io.StringIO()), redirect_stderr(io.StringIO()):
        analyze.main(["--workers", "2", str(store), *paths])


def choose_files(most: int) -> list[str]:
    every = sorted(str(path) for path in NODE_FILES.rglob("*") if path.suffix in ENDINGS and path.is_file())
    return [every[at * len(every) // most] for at in range(min(most, len(every)))]


def add_all(path: str, modules: Iterable[Module]) -> None:
    with closing(Store(path)) as store:
        left = iter(modules)
        while batch := list(islice(left, TOGETHER)):
            store.write(batch, [])


def again(modules: list[Module], count: int) -> Iterator[Module]:
    """So many modules, in the order of their names, each with a content of its own."""
    for number in range(count):
        module = modules[number % len(modules)]
        rows = module.rows + [Row("import", 0, "rare", "rare", None, 0, 0)] * (number % 100_000 == 0)
        name = f"file:///registry/{number:08}/index.js"
        yield module._replace(specifier=name, hash=number.to_bytes(32, "big"), rows=rows)


def ask(path: Path, modules: int) -> None:
    with closing(Store(str(path))) as store:
        connection = store._connection
        order = "SELECT package, count(*) FROM dependencies WHERE package IS NOT NULL GROUP BY 1 ORDER BY 2 DESC"
        names = connection.execute(order).fetchall()
        rows = connection.execute("SELECT count(*) FROM dependencies").fetchone()[0]
        size = path.stat().st_size
        print(f"{modules:,} modules, {rows:,} rows, {size / 1e9:.2f} GB, {size / modules:.0f} bytes a module")
        for package, count in names[0], names[-1]:
            took = []
            for _ in range(5):
                began = time.monotonic()
                assert len(connection.execute(WHO, (package,)).fetchall()) == count
                took.append(1000 * (time.monotonic() - began))
            print(f"who imports {package!r}: {count:,} rows, {took[0]:.1f} ms, then {min(took):.1f} ms")


def report(name: str, count: int, start: Seconds, whole: Seconds) -> None:
    """Prints what a module takes, and where the next limit is: the one process with the client."""
    own, workers = (whole.own - start.own) / count, max(whole.workers - start.workers, 1e-9) / count
    print(f"{name}: {1000 * workers:.2f} ms of a worker a module, {1 / workers:,.0f} modules a second a core")
    print(f"  the client: {1000 * own:.2f} ms, {1 / own:,.0f} modules a second at most, by {workers / own:.0f} workers")
    hours = MILLION * max(workers / 2, own) / 3600
    cores = MILLION * (own + workers) / 3600
    print(f"  a million modules: {cores:.2f} hours of a core, {hours:.2f} by two workers")


def main() -> None:
    words = argparse.ArgumentParser(prog="bench/cluster.py")
    words.add_argument("--files", type=int, default=5000)
    words.add_argument("--modules", type=int, default=MILLION)
    options = words.parse_args()
    paths = choose_files(options.files)
    print(f"{len(paths)} files, {sum(Path(path).stat().st_size for path in paths) / 1e6:.1f} MB")
    print(f"{'':32} {'seconds':>8} {'own':>8} {'workers':>8}")
    with tempfile.TemporaryDirectory() as name:
        folder = Path(name)
        modules: list[Module] = []
        measure("modinfo.files", lambda: sum(1 for _ in modinfo.files(paths)))
        measure("with rows", lambda: modules.extend(work.analyze(of_path(path)) for path in paths))
        measure("SQLite", lambda: add_all(str(folder / "alone.sqlite"), modules))
        start = measure("one file", lambda: run(folder / "one.sqlite", paths[:1]))
        first = measure("all files", lambda: run(folder / "whole.sqlite", paths))
        known = measure("again", lambda: run(folder / "whole.sqlite", paths))
        report("all files", len(paths), start, first)
        report("again", len(paths), start, known)
        table = folder / "large.sqlite"
        measure(f"SQLite, {options.modules:,} modules", lambda: add_all(str(table), again(modules, options.modules)))
        ask(table, options.modules)


if __name__ == "__main__":
    main()
