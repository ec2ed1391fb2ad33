"""The commands of docs/SCALE.md, one after another, as they are there."""

import os
import re
import shutil
import sqlite3
import subprocess
from pathlib import Path

from conftest import ROOT

BLOCK = re.compile(r"^```bash\n(.*?)^```$", re.DOTALL | re.MULTILINE)
MODINFO = Path(os.environ.get("MODINFO") or ROOT / "build/modinfo").resolve()


def test_the_page_s_commands(tmp_path: Path) -> None:
    """In a folder with what is built and with real sources, of which one has a syntax error."""
    (tmp_path / "build").mkdir()
    for name in "examples", "build/cluster":
        (tmp_path / name).symlink_to(ROOT / name)
    (tmp_path / "modinfo").symlink_to(MODINFO)
    (tmp_path / "src").mkdir()
    for path in (ROOT / "examples").glob("*.*s"):
        shutil.copy(path, tmp_path / "src")
    (tmp_path / "src/bad.js").write_text("import {")
    commands = "".join(BLOCK.findall((ROOT / "docs/SCALE.md").read_text()))
    script = f"set -euo pipefail\ntrap 'jobs -p | xargs --no-run-if-empty kill; wait' EXIT\n{commands}"
    done = subprocess.run(["bash", "-c", script], cwd=tmp_path, capture_output=True)
    assert done.returncode == 0, done.stderr.decode()
    lines = (tmp_path / "files.jsonl").read_text()
    assert lines.count("\n") == len(os.listdir(tmp_path / "src")) > 5 and lines.count('"fault"') == 1
    assert (tmp_path / "by-parallel.jsonl").read_text() == lines
    for name in "store.sqlite", "other.sqlite":
        found = sqlite3.connect(tmp_path / name).execute("SELECT count(*), count(fault) FROM modules").fetchall()
        assert found == [(lines.count("\n"), 1)]
    assert (tmp_path / "importers").read_text() == f"file://{tmp_path}/src/acorn-private-methods.mjs|0|33\n"
