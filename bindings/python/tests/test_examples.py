import json
import subprocess
import sys
from pathlib import Path

import pytest
from repository import EXAMPLES, ROOT, SOURCES, examples

import modinfo


@pytest.mark.parametrize("form", [bytes, str, dict])
@pytest.mark.parametrize("command, document, expected", examples(), ids=lambda part: getattr(part, "name", part))
def test_an_example(command: str, document: Path, expected: Path, form: type) -> None:
    read = {bytes: Path.read_bytes, str: Path.read_text, dict: lambda path: json.loads(path.read_text())}
    assert getattr(modinfo, command)(read[form](document)) == json.loads(expected.read_text())


def test_that_every_example_is_there() -> None:
    answers = [*EXAMPLES.glob("*.out.json"), *EXAMPLES.glob("*.converted.json"), *EXAMPLES.glob("*.reached.json")]
    assert sorted(expected for _, _, expected in examples()) == sorted(answers)
    assert {command for command, _, _ in examples()} == {"analyze", "convert", "reach"}


def test_the_job_s_table(tmp_path: Path) -> None:
    """Whatever the order of the files. A file with a fault is named, and the others are counted."""
    job = [sys.executable, EXAMPLES / "job/job.py"]
    names = [str(path.relative_to(ROOT)) for path, _ in SOURCES]
    for order in names, names[::-1]:
        done = subprocess.run([*job, *order], cwd=ROOT, capture_output=True, text=True, check=False)
        assert (done.stdout, done.stderr) == ((EXAMPLES / "job/expected").read_text(), "")
        assert done.returncode == 0
    specifiers = [f"p{number:02}/x" for number in range(1, 22)] + ["p03", "node:p03", "@s/n/x", "@s/n"]
    others = ["./p04", "/p04", "https://p04", "#p04", "", ".."]
    (tmp_path / "a.ts").write_text("".join(f"import {each!r};\n" for each in specifiers + others))
    (tmp_path / "b.ts").write_text("import {")
    (tmp_path / "c.ts").write_text("require(`${x}`);")
    done = subprocess.run([*job, "c.ts", "b.ts", "a.ts"], cwd=tmp_path, capture_output=True, text=True, check=False)
    counted = [f"1 p{number:02}\n" for number in range(1, 22) if number != 3]
    assert done.stdout == "3 p03\n2 @s/n\n" + "".join(counted[:18]) + "\nc.ts\n"
    assert done.stderr.startswith("b.ts: Syntax at line 1, ") and done.returncode == 1
