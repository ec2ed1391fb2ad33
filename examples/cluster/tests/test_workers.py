"""Files that end or stop their workers, and nothing but regular files."""

import os
import subprocess
import sys

from conftest import PROGRAM, Example


def listed(errors: list[str]) -> list[str]:
    # Before them Dask may print why a worker ended while it began.
    return [line for line in errors if line.startswith("file:")]


def test_one_file_of_many_that_ends_its_worker_twice(example: Example) -> None:
    """Each of the others has its result, although workers ended that had some of them."""
    example.write(**{f"file{at}": f'import "./{at}";' for at in range(2999)}, bad='import "a"; // kills twice')
    status, output, errors = example.run("--batch", "50", example.source)
    assert (status, output) == (1, "3,000 analyzed, 0 known, 1 faults\n")
    assert listed(errors) == [f"{example.url('bad')}: Worker: KilledWorker"]
    assert example.deaths.read_bytes() == b".."
    assert example.rows("SELECT count(*) FROM dependencies WHERE specifier LIKE './%'") == [(2999,)]
    assert example.rows("SELECT module FROM modules WHERE fault IS NOT NULL") == [(example.url("bad"),)]
    # The fault isn't one of the file's content, so the next run analyzes it.
    assert example.run() == (0, "1 analyzed, 2,999 known, 0 faults\n", [])


def test_a_file_that_takes_too_long(example: Example) -> None:
    example.write(a='import "a";', b="// hangs", c='import "c";')
    status, output, errors = example.run("--limit", "2", example.source)
    assert (status, output) == (1, "3 analyzed, 0 known, 1 faults\n")
    assert listed(errors) == [f"{example.url('b')}: Worker: KilledWorker"]
    assert example.rows("SELECT specifier FROM dependencies ORDER BY 1") == [("a",), ("c",)]


def test_that_a_pipe_is_not_waited_for(example: Example) -> None:
    example.write(a='import "a";')
    os.mkfifo(example.source / "b.ts")
    (example.source / "c.ts").mkdir()
    os.symlink("/dev/zero", example.source / "d.ts")
    status, output, errors = example.run()
    assert (status, output) == (1, "3 analyzed, 0 known, 2 faults\n")
    assert errors == [f"{example.url(name)}: Input: no regular file" for name in "bd"]


def test_that_only_workers_read_files(example: Example) -> None:
    """The program's own process can't, and the workers, which are started anew, can."""
    example.write(a='import "a";', b="import {")
    code = f"import modinfo, runpy, sys; del modinfo.read_file; runpy.run_path({str(PROGRAM)!r}, run_name='__main__')"
    words = [sys.executable, "-c", code, "--workers", "1", example.store, example.source]
    for counts in "2 analyzed, 0 known, 1 faults\n", "0 analyzed, 2 known, 1 faults\n":
        done = subprocess.run(words, cwd=PROGRAM.parent, capture_output=True, text=True)
        assert done.stdout == counts, done.stderr
