"""Compares the words that the program takes with docs/commands.json, and tests the completions of shells. The
program is the one that MODINFO names, else that in build/."""

import itertools
import json
import os
import shutil
import subprocess
from concurrent.futures import ThreadPoolExecutor

import pytest
from installed import ROOT

TABLE = json.loads((ROOT / "docs/commands.json").read_text())
PROGRAM = os.environ.get("MODINFO", f"{ROOT}/build/modinfo")
COMPLETIONS = ROOT / "packaging/completions"
USAGE = (2, b"", b"modinfo: usage: modinfo analyze, modinfo convert or modinfo reach\n")
NAMES = [each["name"] for each in TABLE["names"]]
# The commands that take names of files in place of words.
OF_FILES = [each["name"] for each in TABLE["names"] if each.get("takes_files")]
WORDS = [
    *(name for name in NAMES if name not in (*OF_FILES, "check")),
    *(each["name"] for each in TABLE["flags"]),
    "--help",
    "other",
]
OFFERED = f"""source {COMPLETIONS}/module-info.bash
COMP_CWORD=$(($# - 1)) COMP_WORDS=("$@")
_module_info
printf '%s\\n' "${{COMPREPLY[@]}}"
"""


def are_right(name: str, words: tuple[str, ...]) -> bool:
    """Whether the table has the words after the name of a command."""
    if words == ("--help",):
        return True
    if name in OF_FILES:
        return words == ("--null",) or not any(word.startswith("-") for word in words)
    given = set(words)
    if len(given) != len(words):
        return False
    if name != "check":
        return any([name, *sorted(given - {"--lines"})] == row["words"] for row in TABLE["commands"])
    named = given - {"--lines", "--strict"}
    return any(named in (set(row["words"]), set(row["words"]) - {"analyze"}) for row in TABLE["commands"])


def run(*words: str | bytes) -> tuple[int, bytes, bytes]:
    finished = subprocess.run([PROGRAM, *words], input=b"", capture_output=True, check=False)
    return finished.returncode, finished.stdout, finished.stderr


def is_wrong(words: tuple[str, ...]) -> bool:
    outcome = run(*words)
    return outcome[0] >= 2 if are_right(words[0], words[1:]) else outcome != USAGE


@pytest.mark.parametrize("name", NAMES)
def test_words_after_a_name(name: str) -> None:
    """Each list of at most three words is refused with the usage exactly where the table doesn't have it. A file that
    isn't there is no wrong word."""
    lists = [(name, *rest) for count in range(4) for rest in itertools.product(WORDS, repeat=count)]
    with ThreadPoolExecutor(2) as pool:
        assert [words for words, wrong in zip(lists, pool.map(is_wrong, lists)) if wrong] == []


def test_help() -> None:
    """Each text is on one subject alone, and they differ."""
    texts = [run("--help"), *(run(name, "--help") for name in NAMES)]
    assert run("-h") == texts[0] and len(set(texts)) == len(texts)
    for title, (status, output, errors) in zip(["modinfo: ", *(f"modinfo {name}: " for name in NAMES)], texts):
        assert (status, output.startswith(title.encode()), output.count(b"\nmodinfo "), errors) == (0, True, 0, b"")


def test_version() -> None:
    assert run("-V") == run("--version")
    assert run("--version")[1]


@pytest.mark.parametrize(
    "words",
    [
        [],
        *([word] for word in WORDS if word not in (*NAMES, "--help")),
        [b"\xff"],
        [b"analyze", b"\xff"],
        [b"--lines", b"analyze"],
        [b"--help", b"analyze"],
    ],
    ids=repr,
)
def test_wrong_words(words: list[str | bytes]) -> None:
    assert run(*words) == USAGE


def offered(*words: str) -> set[str]:
    """What bash offers after words."""
    command = ["bash", "-c", OFFERED, "bash", "module-info", *words, ""]
    printed = subprocess.run(command, capture_output=True, text=True, check=True)
    assert printed.stderr == ""
    return set(printed.stdout.split())


@pytest.mark.parametrize("name", NAMES)
def test_what_bash_offers(name: str) -> None:
    """After each list of at most two words, exactly the words with which some longer list is right."""
    for count in range(3):
        for rest in itertools.permutations(WORDS, count):
            longer = [rest + more for size in (1, 2, 3) for more in itertools.permutations(WORDS, size)]
            right = {words[count] for words in longer if are_right(name, words)}
            # Any other word is the name of a file, which bash completes itself.
            assert offered(name, *rest) == right - {each for each in right if name in OF_FILES and each[0] != "-"}, rest


def test_what_bash_offers_first() -> None:
    assert offered() == {*NAMES, "--help", "--version"}
    assert offered("--help") == offered("other") == set()


@pytest.mark.parametrize(
    ("shell", "file", "option"), [("zsh", "_module-info", "-n"), ("fish", "module-info.fish", "--no-execute")]
)
def test_completions_that_a_shell_reads(shell: str, file: str, option: str) -> None:
    if not shutil.which(shell):
        pytest.skip(f"{shell} isn't on the path")
    tried = subprocess.run([shell, option, COMPLETIONS / file], capture_output=True, text=True, check=True)
    assert tried.stderr == ""
