"""Runs the program as a user does, with workers that some texts end or stop."""

import os
import sqlite3
import subprocess
import sys
from contextlib import closing
from pathlib import Path
from typing import Any

import pytest

HERE = Path(__file__).resolve().parent
PROGRAM = HERE.parent / "analyze.py"
ROOT = HERE.parents[2]
sys.path.insert(0, str(HERE.parent))


class Example:
    """A folder with files, and the store of their rows."""

    def __init__(self, folder: Path) -> None:
        self.folder, self.store, self.source = folder, folder / "store.sqlite", folder / "src"
        self.source.mkdir()
        self.deaths = folder / "deaths"
        os.environ["DEATHS"] = str(self.deaths)
        os.environ["DASK_LOGGING__DISTRIBUTED"] = "critical"
        os.environ["DASK_DISTRIBUTED__WORKER__PRELOAD"] = str(HERE / "preload.py")

    def write(self, **texts: str) -> None:
        """Writes files NAME.ts."""
        for name, text in texts.items():
            (self.source / f"{name}.ts").write_text(text)

    def url(self, name: str) -> str:
        return f"file://{self.source}/{name}.ts"

    def start(self, *words: str | Path, prefix: tuple[str, ...] = ()) -> "subprocess.Popen[str]":
        command = [*prefix, sys.executable, PROGRAM, "--workers", "2", self.store, *(words or [self.source])]
        pipe = subprocess.PIPE
        return subprocess.Popen(command, stdin=pipe, stdout=pipe, stderr=pipe, text=True)

    def run(self, *words: str | Path, input: str = "", prefix: tuple[str, ...] = ()) -> tuple[int, str, list[str]]:
        """The status, the output and the lines of the error output."""
        run = self.start(*words, prefix=prefix)
        output, errors = run.communicate(input)
        return run.returncode, output, errors.splitlines()

    def rows(self, select: str) -> list[Any]:
        """What the store has. Nothing, where it isn't made yet."""
        with closing(sqlite3.connect(self.store)) as connection:
            is_made = connection.execute("SELECT 1 FROM sqlite_master WHERE name = 'by_hash'").fetchone()
            return connection.execute(select).fetchall() if is_made else []


@pytest.fixture
def example(tmp_path: Path) -> Example:
    return Example(tmp_path)
