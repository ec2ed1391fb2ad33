"""Tests tools/test: which parts run, what is printed of each, and the status."""

import re

import pytest
from repository import Repository
from sources import ROOT

# The lists of tools/parts.py, after its classes.
LISTS = """
BUILDS = {
    "broken": "echo what is wrong; exit 3",
    "linked": "echo linked >> $ROOM/runs",
    "sound": "echo built >> $ROOM/runs",
    "unlinked": "echo unlinked >> $ROOM/runs",
}
NEEDS = {"linked": "sound", "unlinked": "broken"}
UNCHECKED = Programs({"MODINFO": "unchecked"}, BUILDS, NEEDS)
PROVED = Programs({"MODINFO": "proved"}, BUILDS, NEEDS)
UNCHECKED_PARTS = [
    Part("program", "echo ${MODINFO##*/} >> $ROOM/runs", ("linked",)),
    Part("passes", "echo 'passes: nothing is passed over'; echo '# SKIP'", ("sound",)),
    Part("fails", "echo what is wrong; exit 3"),
    Part("unavailable", "exit 69"),
    Part("unbuilt", "echo unbuilt >> $ROOM/runs", ("unlinked",)),
]
PROVED_PARTS = [*UNCHECKED_PARTS, Part("long", "sleep 60 & echo $! > $ROOM/process; wait")]
"""
LINES = {
    "program": "program: passed, N s",
    "passes": "passes: passed, N s\n    passes: nothing is passed over\n    # SKIP",
    "fails": "fails: failed, N s, see build/test/fails.log",
    "unavailable": "unavailable: passed over, N s: what it needs isn't installed",
    "unbuilt": "unbuilt: failed, what it needs isn't built",
}


@pytest.fixture
def parts(repository: Repository) -> Repository:
    classes = (ROOT / "tools/parts.py").read_text().split("\nUNCHECKED = ")[0]
    repository.write("tools/parts.py", classes + LISTS)
    return repository


def lines(parts: Repository, *words: str) -> tuple[int, list[str]]:
    status, output, _ = parts.run("tools/test", *words)
    return status, re.sub(r"\b\d+ s\b", "N s", output).splitlines()


@pytest.mark.parametrize("name", LINES)
def test_one_part(parts: Repository, name: str) -> None:
    status, printed = lines(parts, name)
    assert "\n".join(printed[-len(LINES[name].splitlines()) :]) == LINES[name]
    assert status == (1 if name in ("fails", "unbuilt") else 0)


@pytest.mark.parametrize("processors", ["1", "4"])
def test_all_parts(parts: Repository, processors: str) -> None:
    status, output, errors = parts.run("tools/test", PROCESSORS=processors)
    assert status == 1
    assert [line for line in re.sub(r"\b\d+ s\b", "N s", output).splitlines() if not line.startswith("build_")] == [
        line for text in LINES.values() for line in text.splitlines()
    ]
    assert "what is wrong" in errors
    assert (parts.folder / "build/test/fails.log").read_text() == "what is wrong\n"
    assert parts.runs() == ["built", "linked", "unchecked"]


def test_the_proved_program(parts: Repository) -> None:
    assert lines(parts, "--proved", "program")[0] == 0
    assert parts.runs() == ["built", "linked", "proved"]


def test_names(parts: Repository) -> None:
    assert parts.run("tools/test", "--list")[1].split() == list(LINES)
    assert parts.run("tools/test", "--list", "--proved")[1].split() == [*LINES, "long"]
    assert parts.run("tools/test", "long")[0] == 2
    assert parts.runs() == []


def test_what_a_part_has_started_ends(parts: Repository) -> None:
    with parts.start("tools/test", "--proved", "long") as started:
        process = parts.wait_for("process")
        started.terminate()
    assert parts.ends(process)
