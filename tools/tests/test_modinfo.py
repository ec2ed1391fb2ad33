"""Tests whether ./modinfo runs the proved program or the unchecked one, and what it prints of an unchecked run."""

import shutil
import subprocess
from pathlib import Path

import pytest
from repository import Repository
from sources import ROOT


def test_the_proved_program(repository: Repository) -> None:
    assert not repository.is_proved()
    repository.prove()
    assert repository.is_proved()
    there = "modinfo: the proved program is there, and no source is newer\n"
    assert repository.run("./modinfo", "--prove") == (0, "", there)
    # By a link, and with nothing else of the repository but the program.
    (repository.room / "link").symlink_to(repository.folder / "modinfo")
    shutil.rmtree(repository.folder / "tools")
    assert repository.run(repository.room / "link", "analyze") == (7, "ran: analyze\n", "modinfo: Tree\n")


@pytest.mark.parametrize(
    "change",
    [
        "echo '// more' >> crates/short/src/lib.rt",
        "touch crates/long/specs/inner/New.antt",
        "touch -d 2020-01-01 old && mv old crates/apart/src/old.rt",
        "rm crates/long/specs/inner/Long.antt",
        "rm -r crates/long/specs",
        "mkdir crates/apart/proofs",
        "echo '# more' >> crates.txt",
        "rm build/modinfo.sources",
    ],
)
def test_changes_of_the_sources(repository: Repository, change: str) -> None:
    repository.prove()
    repository.run("sh", "-c", change)
    assert not repository.is_proved()
    repository.prove()
    assert repository.is_proved()


@pytest.mark.parametrize(
    "change",
    [
        "touch crates/modinfo_c/src/new.rt",
        "touch crates/short/README.md",
        "rm -r build/crates",
        "mv $PWD ../moved && mv ../moved $PWD",
    ],
)
def test_other_changes(repository: Repository, change: str) -> None:
    """The first call after a change compares the list of sources, the next only times."""
    repository.prove()
    repository.run("sh", "-c", change)
    assert repository.is_proved()
    shutil.rmtree(repository.folder / "tools")
    assert repository.is_proved()


def test_an_unchecked_run(repository: Repository) -> None:
    """Only the first one builds the program."""
    for runs in ["try"], []:
        assert not repository.is_proved()
        assert repository.runs() == runs
    repository.change("lowest/src/lib.rt")
    repository.ask("try", "echo 'error: no such name'; exit 1")
    status, output, errors = repository.run("./modinfo", "analyze")
    assert (status, output) == (1, "")
    assert errors.endswith("tools/build_unchecked: modinfo_cli isn't compiled:\nerror: no such name\n")


@pytest.mark.slow
def test_a_fresh_clone(tmp_path: Path) -> None:
    """A real unchecked run, which takes a minute of processor time."""
    subprocess.run(["git", "clone", "-q", ROOT, tmp_path / "clone"], check=True)
    document = (ROOT / "examples/side-effect-import.json").read_text()
    words = [tmp_path / "clone/modinfo", "analyze"]
    run = subprocess.run(words, input=document, capture_output=True, text=True, check=True)
    assert run.stdout == (ROOT / "examples/side-effect-import.out.json").read_text()
    assert len(run.stderr.splitlines()) == 1
