"""Tests the help of each script, and tools/set_version."""

import re
import subprocess

import pytest
from repository import Repository, copy_tracked
from sources import ROOT, tracked

VERSION = (ROOT / "VERSION").read_text().strip()


def has_help(name: str) -> bool:
    """Whether it is a script that a person starts. The words of tools/try_modinfo are those of modinfo; node --test
    tests the commands of the package for node; analyze.py needs Dask, and job.py the package for Python."""
    others = (
        r"/tests/|^packaging/(aarch64|debian)/|^bindings/node/modinfo|^tools/try_modinfo$|/analyze.py$|^examples/job/"
    )
    return not re.search(others, name) and (ROOT / name).read_bytes()[:3] == b"#!/"


FOLDERS = [".ci", "bench", "bindings", "crates/test_replay/fail_*", "examples", "packaging", "tools"]
SCRIPTS = [name for name in tracked(*FOLDERS) if has_help(name)]


@pytest.mark.parametrize("option", ["-h", "--help"])
@pytest.mark.parametrize("words", [["modinfo", "--prove"], *([name] for name in SCRIPTS)], ids=" ".join)
def test_help(words: list[str], option: str) -> None:
    """The usage and an example, in at most 40 lines of 110 columns. It needs no build, no network and no package."""
    program = (ROOT / words[0]).read_text().splitlines()[0].removeprefix("#!").split()
    run = subprocess.run(
        [*program, ROOT / words[0], *words[1:], option], stdin=subprocess.DEVNULL, capture_output=True, text=True
    )
    assert (run.returncode, run.stderr) == (0, "")
    lines = run.stdout.splitlines()
    assert any(line.startswith("usage: ") for line in lines)
    assert any("example:" in line.lower() for line in lines)
    assert len(lines) <= 40
    assert max(map(len, lines)) <= 110


def test_scripts_are_found() -> None:
    assert len(SCRIPTS) >= 40


# How often the version is in the files of the packages for npm and of the tests of the program.
VERSIONED = {
    "bindings/node/package.json": 1,
    "bindings/node/modinfo/package.json": 1,
    "bindings/node/modinfo-graph/package.json": 4,
    "bindings/node/modinfo-report/package.json": 2,
    "bindings/node/linux-arm64/package.json": 1,
    "bindings/node/linux-x64/package.json": 1,
    "bindings/node/modinfo/README.md": 1,
    "bindings/node/modinfo-graph/README.md": 4,
    "bindings/node/modinfo-report/README.md": 3,
    "crates/test_replay/data/program.rows": 2,
}


def test_a_new_version(repository: Repository) -> None:
    """All but the sources in Rattle get it; what is left with another version is named."""
    crates = ["crates/modinfo/src", "crates/modinfo_c/src", "crates/test_replay/data"]
    copy_tracked(repository, "VERSION", "bindings", "include", "packaging", "tools", "*.md", *crates)
    repository.run("git", "init", "-q")
    command = ["python3", "tools/set_version"]
    assert repository.run(*command, "--check")[:2] == (0, f"version: {VERSION} in every file that has it\n")
    repository.write("VERSION", "12.3.45\n")
    sources = ["crates/modinfo/src/help.rt", "crates/modinfo_c/src/lib.rt"]
    named = [f"{source} doesn't have the version 12.3.45: change it by hand" for source in sources]
    status, output, _ = repository.run(*command)
    assert (status, output.splitlines()) == (1, named)
    assert repository.run(*command, "--check")[1].splitlines() == named
    texts = [(repository.folder / name).read_text() for name in VERSIONED]
    assert [text.count("12.3.45") for text in texts] == list(VERSIONED.values())
    assert not any(VERSION in text for text in texts)
    cargo = (repository.folder / "bindings/rust/Cargo.toml").read_text()
    repository.write("bindings/rust/Cargo.toml", cargo.replace("12.3.45", VERSION))
    old = "bindings/rust/Cargo.toml doesn't have the version 12.3.45: run tools/set_version"
    assert old in repository.run(*command, "--check")[1]
    repository.write("bench/log/old.md", f"modinfo {VERSION}\n")
    repository.write("packaging/new.json", f'{{\n  "name": "modinfo-new",\n  "version": "{VERSION}"\n}}\n')
    new = f"packaging/new.json has the version {VERSION}: change it by hand"
    assert repository.run(*command, "--check")[1].splitlines() == [old, *named, new]
    repository.write("bindings/rust/Cargo.toml", "")
    assert 'bindings/rust/Cargo.toml doesn\'t have name = "modinfo"' in repository.run(*command, "--check")[1]
