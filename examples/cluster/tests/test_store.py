"""What a second run does, broken rows, two runs at once, and a full disk."""

import sqlite3
from contextlib import closing

from conftest import Example
from store import Store

ALL = """SELECT module, fault, hash, checksum, number, kind, specifier, line FROM modules
LEFT JOIN rows_of_modules USING (id) ORDER BY module, number"""
WHO = "SELECT module FROM dependencies WHERE specifier = 'a' OR specifier LIKE 'a/%' ORDER BY 1"


def test_a_second_run(example: Example) -> None:
    """Analyzes what changed, also if its time is as it was, and no copy of this media type under another name."""
    example.write(a='import "a";', b='import "b";', c="import {", e="let a = <T>b;")
    (example.source / "e.tsx").write_text("let a = <T>b;")
    assert example.run()[:2] == (1, "5 analyzed, 0 known, 2 faults\n")
    before = example.rows(ALL)
    assert example.run()[:2] == (1, "0 analyzed, 5 known, 2 faults\n")
    assert example.rows(ALL) == before
    example.write(b='import "changed";', c="", d='import "a";')
    assert example.run()[:2] == (1, "2 analyzed, 4 known, 1 faults\n")
    found = example.rows("SELECT module, specifier FROM dependencies WHERE specifier IS NOT NULL ORDER BY 1")
    assert found == [(example.url("a"), "a"), (example.url("b"), "changed"), (example.url("d"), "a")]


def test_modules_that_are_gone(example: Example) -> None:
    """Their run is an earlier one. A run with --prune takes them out, and no others."""
    example.write(a='import "a";', b='import "A/b";', c='import "ab";')
    assert example.run()[0] == 0
    (example.source / "b.ts").unlink()
    assert example.run() == (0, "0 analyzed, 2 known, 0 faults\n", [])
    assert example.rows("SELECT run FROM modules ORDER BY module") == [(2,), (1,), (2,)]
    assert example.rows(WHO) == [(example.url("a"),), (example.url("b"),)]
    assert example.run("--prune", example.source) == (0, "0 analyzed, 2 known, 0 faults, 1 taken out\n", [])
    assert example.rows(WHO) == [(example.url("a"),)]
    assert example.rows("SELECT count(*), min(run) FROM rows_of_modules JOIN modules USING (id)") == [(2, 3)]
    assert example.rows("SELECT run FROM runs WHERE began <= ended") == [(1,), (2,), (3,)]


def test_that_questions_use_an_index(example: Example) -> None:
    Store(str(example.store)).close()
    for end in WHO.split(" FROM ")[1], "dependencies WHERE package = 'a'", "modules WHERE fault IS NOT NULL":
        plan = str(example.rows(f"EXPLAIN QUERY PLAN SELECT module FROM {end}"))
        assert "INDEX by_" in plan and "SCAN" not in plan


# Each is made to the rows of another module.
OF = "WHERE id = (SELECT id FROM modules WHERE module = ?)"
CHANGES = {
    "a": f"UPDATE rows_of_modules SET specifier = 'other' {OF} AND number = 1",
    "b": f"UPDATE modules SET fault = 'Syntax' {OF}",
    "c": f"UPDATE modules SET checksum = NULL {OF}",
    "d": f"DELETE FROM rows_of_modules {OF} AND number = 2",
    "e": f"DELETE FROM modules {OF}",
}


def test_rows_that_do_not_fit_their_checksum(example: Example) -> None:
    example.write(**{name: f'import "{name}1";\nimport "{name}2";\n' for name in [*CHANGES, "f"]})
    assert example.run()[0] == 0
    before = example.rows(ALL)
    with closing(sqlite3.connect(example.store, isolation_level=None)) as connection:
        for name, change in CHANGES.items():
            assert connection.execute(change, (example.url(name),)).rowcount > 0
    assert example.run() == (0, "5 analyzed, 1 known, 0 faults\n", [])
    assert example.rows(ALL) == before


def test_a_store_that_is_none(example: Example) -> None:
    example.write(a='import "a";')
    example.store.write_text("no database" * 1000)
    assert example.run() == (1, "", ["analyze.py: file is not a database"])
    assert example.store.read_text() == "no database" * 1000


def test_two_runs_at_once(example: Example) -> None:
    example.write(**{f"file{at}": f'import "./{at}";' for at in range(300)})
    runs = [example.start("--batch", "5", example.source) for _ in range(2)]
    assert [(run.communicate()[1], run.returncode) for run in runs] == [("", 0)] * 2
    found = example.rows("SELECT count(*), count(DISTINCT module), count(specifier) FROM dependencies")
    assert found == [(300, 300, 300)]
    assert example.run() == (0, "0 analyzed, 300 known, 0 faults\n", [])


def test_that_rows_are_written_as_they_come(example: Example) -> None:
    """The last file is held until the rows of the others are there, and another run writes."""
    example.write(a='import "a";', b='import "b";', c='import "c"; // hangs')
    run, specifiers = example.start("--batch", "1", example.source), "SELECT specifier FROM dependencies ORDER BY 1"
    while len(example.rows(specifiers)) < 2:
        assert run.poll() is None
    with closing(sqlite3.connect(example.store, isolation_level=None)) as other:
        other.execute("BEGIN IMMEDIATE")
        (example.folder / "go").touch()
        other.execute("INSERT INTO modules (module, run, time) VALUES ('other', 0, '')")
        other.execute("COMMIT")
    assert (run.communicate(), run.returncode) == (("3 analyzed, 0 known, 0 faults\n", ""), 0)
    assert example.rows(specifiers) == [("a",), ("b",), ("c",)]
    assert example.rows("SELECT count(*) FROM modules") == [(4,)]


def test_a_full_disk(example: Example) -> None:
    """No file may be larger than 200 kB, so the store of the second run is full."""
    example.write(a='import "a";')
    assert example.run()[0] == 0
    example.write(**{f"file{at}": f'import "./{"x" * 900}{at}";' for at in range(1000)})
    status, output, errors = example.run("--batch", "10", example.source, prefix=("prlimit", "--fsize=200000"))
    assert (status, output, len(errors)) == (1, "", 1)
    assert errors[0] in ("analyze.py: disk I/O error", "analyze.py: database or disk is full")
    assert example.rows("PRAGMA integrity_check") == [("ok",)]
    assert example.rows("SELECT run FROM runs WHERE ended IS NULL") == [(2,)]
    assert example.rows("SELECT module FROM dependencies WHERE specifier = 'a'") == [(example.url("a"),)]
    assert example.run()[0] == 0
