"""Tests tools/check: the words of the prover, and libraries that are missing or have changed."""

import pytest
from repository import Repository


@pytest.mark.parametrize(("options", "jobs"), [(["--only", "a::b"], ["--jobs", "2"]), (["--jobs", "4"], [])])
def test_a_check(repository: Repository, options: list[str], jobs: list[str]) -> None:
    repository.prove()
    repository.ask("short", "echo logic=proved")
    assert repository.run("tools/check", "short", *options) == (0, "logic=proved\n", "")
    words = (repository.room / "checked").read_text().splitlines()
    wanted = [*jobs, "--incremental", f"{repository.folder}/build/checks/short", *options]
    assert words[-len(wanted) :] == wanted
    assert f"lowest={repository.folder}/build/crates/lowest.rlib" in words
    assert repository.is_proved()


def test_a_check_that_fails(repository: Repository) -> None:
    repository.prove()
    repository.ask("short", "echo 'fn a: not proved'; exit 1")
    assert repository.run("tools/check", "short") == (1, "fn a: not proved\n", "")


def test_libraries(repository: Repository) -> None:
    missing = "tools/check: not built: apart, long, lowest, short; run tools/check --libraries modinfo\n"
    assert repository.run("tools/check", "modinfo") == (1, "", missing)
    assert repository.run("tools/check", "--libraries", "modinfo")[0] == 0
    assert repository.runs() == ["lowest 1", "long 1", "short 1", "apart 1"]
    assert repository.run("tools/check", "--libraries", "modinfo") == (0, "", "")
    repository.change("lowest/src/lib.rt")
    changed = "tools/check: changed since it was built, and used as it was then: long, lowest, short\n"
    assert repository.run("tools/check", "modinfo") == (0, "", changed)


@pytest.mark.parametrize(("words", "status"), [([], 2), (["--only", "a"], 2), (["none"], 1)])
def test_words(repository: Repository, words: list[str], status: int) -> None:
    assert repository.run("tools/check", *words)[0] == status
