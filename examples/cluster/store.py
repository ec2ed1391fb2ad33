"""Modules and their dependencies in SQLite, which several runs may read and write at once."""

import fcntl
import hashlib
import json
import os
import sqlite3

from work import Module, Row

# How long a run waits while another one writes.
WAIT_SECONDS = 60.0
# Rows have the number of their module, since its URL would be most of their bytes. SQLite's LIKE uses only an index in
# which both cases of a letter are equal, and = only one in which they aren't.
TABLES = """
PRAGMA journal_mode = WAL;
PRAGMA synchronous = NORMAL;
PRAGMA cache_size = -262144;
CREATE TABLE IF NOT EXISTS runs (run INTEGER PRIMARY KEY, began TEXT NOT NULL, ended TEXT);
CREATE TABLE IF NOT EXISTS modules (
    id INTEGER PRIMARY KEY,
    module TEXT NOT NULL UNIQUE, -- URL
    run INTEGER NOT NULL, -- the last run that named the module
    time TEXT NOT NULL, -- when its rows were written
    package TEXT, version TEXT, -- by the nearest package.json with a name, or by these members of a text's document
    fault TEXT, -- why there are no rows
    hash BLOB, -- SHA-256 of text, media type and library
    checksum BLOB -- SHA-256 of the rows
);
CREATE TABLE IF NOT EXISTS rows_of_modules (
    id INTEGER NOT NULL,
    number INTEGER NOT NULL, -- from 1 on in a module
    kind TEXT, -- as in the JSON; of comments: reference path, reference types, jsdoc, self_types_specifier, ..
    is_dynamic INTEGER, -- 1 for a call
    specifier TEXT,
    package TEXT, -- of a specifier that is no path or URL
    parts TEXT, -- of an argument, in JSON, where it has no specifier
    line INTEGER, character INTEGER, -- where the specifier or argument starts, from zero
    types TEXT, -- specifier of its types
    attributes TEXT, -- import attributes, in JSON
    PRIMARY KEY (id, number)
) WITHOUT ROWID;
CREATE INDEX IF NOT EXISTS by_specifier ON rows_of_modules (specifier) WHERE specifier IS NOT NULL;
CREATE INDEX IF NOT EXISTS by_start ON rows_of_modules (specifier COLLATE NOCASE) WHERE specifier IS NOT NULL;
CREATE INDEX IF NOT EXISTS by_package ON rows_of_modules (package) WHERE package IS NOT NULL;
CREATE VIEW IF NOT EXISTS dependencies AS
    SELECT module, number, kind, is_dynamic, specifier, rows.package, parts, line, character, types, attributes, run,
    time FROM rows_of_modules AS rows JOIN modules USING (id);
CREATE INDEX IF NOT EXISTS by_fault ON modules (fault) WHERE fault IS NOT NULL;
CREATE INDEX IF NOT EXISTS by_hash ON modules (hash) WHERE hash IS NOT NULL;
"""
COLUMNS = ", ".join(Row._fields)
MODULE = """INSERT INTO modules (module, package, version, fault, hash, checksum, run, time)
    VALUES (?, ?, ?, ?, ?, ?, ?, datetime('now')) ON CONFLICT (module) DO UPDATE SET package = excluded.package,
    version = excluded.version, fault = excluded.fault, hash = excluded.hash, checksum = excluded.checksum,
    run = max(run, excluded.run), time = excluded.time RETURNING id"""
NAMED = "UPDATE modules SET run = max(run, ?), package = ?, version = ? WHERE module = ?"
ROW = f"INSERT INTO rows_of_modules (id, number, {COLUMNS}) VALUES (?, ?, {', '.join('?' * len(Row._fields))})"
ROWS = f"SELECT {COLUMNS} FROM rows_of_modules WHERE id = ? ORDER BY number"


class Store:
    """The tables, and a run, of which each module has the number that it names. A transaction is open only while rows
    are written; another run waits for its end."""

    def __init__(self, path: str) -> None:
        self._connection = sqlite3.connect(path, timeout=WAIT_SECONDS, isolation_level=None)
        # SQLite itself doesn't wait while another run makes the tables.
        folder = os.open(os.path.dirname(os.path.abspath(path)), os.O_RDONLY)
        try:
            fcntl.flock(folder, fcntl.LOCK_EX)
            self._connection.executescript(TABLES)
        finally:
            os.close(folder)
        self._run = self._connection.execute("INSERT INTO runs (began) VALUES (datetime('now'))").lastrowid

    def find(self, digest: bytes, specifier: str) -> Module | None:
        """What a module with this content has: that of the specifier, else some other. Rows that don't fit their
        checksum are passed over."""
        select = "SELECT id, module, fault, package, version, checksum FROM modules WHERE"
        found = self._connection.execute(f"{select} module = ? AND hash = ?", (specifier, digest)).fetchall()
        found += self._connection.execute(f"{select} hash = ? LIMIT 3", (digest,)).fetchall()
        for number, name, fault, package, version, checksum in found:
            rows = [Row(*row) for row in self._connection.execute(ROWS, (number,))]
            module = Module(name, digest, fault, rows, package, version)
            if checksum == checksum_of(module):
                return module
        return None

    def write(self, modules: list[Module], named: list[Module]) -> None:
        """Writes modules and their rows, in place of those that they have. Of other modules, which are there already,
        writes only that this run names them, and where they come from. Writes all or, with an error, nothing."""
        write = self._connection.execute
        with self._connection:
            write("BEGIN IMMEDIATE")
            for each in modules:
                values = each.specifier, each.package, each.version, each.fault, each.hash, checksum_of(each), self._run
                [[number]] = write(MODULE, values).fetchall()
                write("DELETE FROM rows_of_modules WHERE id = ?", (number,))
                self._connection.executemany(ROW, ((number, at, *row) for at, row in enumerate(each.rows, 1)))
            for each in named:
                write(NAMED, (self._run, each.package, each.version, each.specifier))

    def end(self, is_pruned: bool) -> int:
        """Notes that the run ended. If `is_pruned`, takes out the modules that it didn't name. Returns how many."""
        write, others = self._connection.execute, "FROM modules WHERE run < ?"
        with self._connection:
            write("BEGIN IMMEDIATE")
            write("UPDATE runs SET ended = datetime('now') WHERE run = ?", (self._run,))
            if not is_pruned:
                return 0
            write(f"DELETE FROM rows_of_modules WHERE id IN (SELECT id {others})", (self._run,))
            return write(f"DELETE {others}", (self._run,)).rowcount

    def close(self) -> None:
        self._connection.close()


def checksum_of(module: Module) -> bytes:
    """Of all but the names, so that a copy under another name has the same."""
    return hashlib.sha256(json.dumps([str(module.hash), module.fault, module.rows]).encode()).digest()[:16]
