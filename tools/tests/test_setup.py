"""Tests tools/setup with a PATH of its own, where nothing can be installed."""

import os
import re
import shutil
import subprocess
from pathlib import Path

import pytest

from parts import PROVED, PROVED_PARTS, UNAVAILABLE, UNCHECKED, UNCHECKED_PARTS
from sources import ROOT

SETUP = ROOT / "tools/setup"
TOOLS = ("bash", "cat", "dirname", "env", "mktemp", "paste", "readlink", "rm", "sed", "sort", "tail", "tr")
CALLS = re.compile(r"tools/setup ([a-z\d ]+?) (?:&&|\|\|)")


@pytest.fixture
def path(tmp_path: Path) -> Path:
    """A folder with the tools that the script runs by itself, and an apt-get that notes its words and fails."""
    for name in TOOLS:
        (tmp_path / name).symlink_to(str(shutil.which(name)))
    stub(tmp_path / "apt-get", f'echo "${{@: -1}}" >> {tmp_path}/words; echo no network >&2; exit 100')
    stub(tmp_path / "sudo", 'shift; exec "$@"')
    return tmp_path


def stub(path: Path, line: str) -> None:
    path.write_text(f"#!/usr/bin/env bash\n{line}\n")
    path.chmod(0o755)


def set_up(path: Path, *words: str) -> "subprocess.CompletedProcess[str]":
    environment = os.environ | {"PATH": str(path)}
    return subprocess.run([SETUP, *words], env=environment, check=False, capture_output=True, text=True)


def test_what_is_there_is_not_installed(path: Path) -> None:
    stub(path / "musl-gcc", "exit 0")
    run = set_up(path, "musl")
    assert (run.returncode, run.stdout, run.stderr) == (0, "", "")
    assert not (path / "words").exists()


def test_what_cannot_be_installed_has_its_own_status(path: Path) -> None:
    """The packages are looked for again after the lists are, and the part after it is still set up."""
    run = set_up(path, "musl", "rust")
    musl, rust = (line for line in run.stderr.splitlines() if line.startswith("tools/setup: "))
    assert run.returncode == UNAVAILABLE
    assert musl == "tools/setup: what musl needs can't be installed from Debian's packages musl-tools"
    assert rust.startswith("tools/setup: what rust needs can't be installed from Debian's packages rustc (>= ")
    assert "no network" in run.stderr
    assert (path / "words").read_text().splitlines()[:2] == ["musl-tools", "update"]


@pytest.mark.parametrize("words", [(), ("none",), ("musl", "none")])
def test_unknown_parts_are_refused(path: Path, words: tuple[str, ...]) -> None:
    run = set_up(path, *words)
    assert run.returncode == 2
    assert run.stderr.startswith("usage: tools/setup PART .., of aarch64 bench browser ")
    assert not (path / "words").exists()


def test_the_help_has_each_part_that_a_test_needs(path: Path) -> None:
    described = set(re.findall(r"^  ([a-z\d]+) ", set_up(path, "--help").stdout, re.MULTILINE))
    listed = set(set_up(path).stderr.split(" of ")[1].split())
    assert described == listed
    commands = [part.command for part in [*PROVED_PARTS, *UNCHECKED_PARTS]]
    commands += [*PROVED.builds.values(), *UNCHECKED.builds.values()]
    used = {name for command in commands for names in CALLS.findall(command) for name in names.split()}
    assert {"python", "node", "wasm", "aarch64"} <= used <= listed
