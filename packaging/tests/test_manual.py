"""Shows the manual pages. That of the program has each command and option as `--help` prints it, of the program
that MODINFO names, else of that in build/; and its example prints what it shows, as each in the texts of --help."""

import json
import os
import re
import shutil
import subprocess
from pathlib import Path

import pytest
from installed import ROOT, VERSION, run

PROGRAM = str(ROOT / os.environ.get("MODINFO", "build/modinfo"))
COMMANDS = [each["name"] for each in json.loads((ROOT / "docs/commands.json").read_text())["names"]]
# The columns and lines of a terminal, of which the shell takes one for its prompt.
SCREEN = (80, 23)
PAGE, FUNCTIONS_PAGE = ROOT / "packaging/module-info.1", ROOT / "packaging/modinfo.3"
# A flag, and its meaning, which may continue on indented lines.
ENTRY = re.compile(r"^  (--\S+) +(\S.*(?:\n {10,}\S.*)*)", re.MULTILINE)
# The characters of a shown page, and those that are typed for them.
TYPESET = str.maketrans({"’": "'", "‘": "'", "“": "`", "”": "`", "−": "-", "‐": "-"})

needs_man = pytest.mark.skipif(not shutil.which("man"), reason="man isn't on the path")


def words(text: str) -> str:
    """The text with one space between words, in the characters that are typed."""
    return " ".join(text.translate(TYPESET).split())


def shown(page: Path) -> str:
    command = ["man", "--no-hyphenation", "--local-file", page]
    return words(run(*command, LC_ALL="C.UTF-8", MANWIDTH="200"))


@needs_man
@pytest.mark.parametrize("page", [PAGE, FUNCTIONS_PAGE], ids=lambda page: page.name)
def test_warnings_and_version(page: Path) -> None:
    done = subprocess.run(["man", "--warnings", "--local-file", page], capture_output=True, text=True, check=True)
    assert done.stderr == ""
    assert f"modinfo {VERSION}" in shown(page)
    # What mandoc asks of a source, where it isn't installed.
    filled = re.sub(r"^\.(nf|EX)\n.*?^\.(fi|EE)$", "", page.read_text(), flags=re.MULTILINE | re.DOTALL)
    text = [line for line in filled.splitlines() if line[:1] not in (".", "\\")]
    assert [line for line in text if len(line.encode()) > 80] == []
    if shutil.which("mandoc"):
        assert subprocess.run(["mandoc", "-Tlint", page], capture_output=True, text=True).stdout == ""


def help_on(command: str | None) -> str:
    """The help on a command alone, or that on all."""
    text = run(PROGRAM, *([command] if command else []), "--help")
    title = f"modinfo {command}: " if command else "modinfo: "
    assert re.findall(r"^modinfo\b.*?: ", text, re.MULTILINE) == [title] and text.startswith(title)
    return text


@needs_man
@pytest.mark.parametrize("command", COMMANDS)
def test_usage_and_meanings(command: str) -> None:
    """The meanings of faults are longer on the page, and come from a schema."""
    page, text = shown(PAGE), help_on(command).split("\n\nFaults:")[0]
    for line in re.findall(r"^(?:usage:|      ) (modinfo .*)", help_on(None), re.MULTILINE):
        # The program is installed by another name than it prints.
        assert words(line.replace("modinfo ", "module-info ", 1)) in page
    about = words(text.split("\n\n")[2])
    assert f"{command} {about}" in page
    for flag, meaning in ENTRY.findall(text):
        assert re.search(rf"{flag} of [a-z, ]*\b{command}\b[a-z, ]*: {re.escape(words(meaning))}", page)


def test_the_first_screen_of_help() -> None:
    lines = help_on(None).splitlines()
    assert len(lines) <= SCREEN[1] and max(map(len, lines)) <= SCREEN[0]
    assert [line.split()[0] for line in lines if re.match(r"  [a-z]", line)] == COMMANDS


@pytest.mark.parametrize("command", [None, *COMMANDS])
def test_examples_of_help(command: str | None, tmp_path: Path) -> None:
    """Each runs in a repository, by the name that the texts have, and prints what is shown after it."""
    (tmp_path / "bin").mkdir()
    (tmp_path / "bin/modinfo").symlink_to(PROGRAM)
    (tmp_path / "c.ts").write_text("f();")
    run("git", "init", "-q", folder=tmp_path)
    run("git", "add", "c.ts", folder=tmp_path)
    examples = re.findall(r"^  \$ (.*(?:\n    .*)*)((?:\n  [\[{].*)*)", help_on(command), re.MULTILINE)
    assert examples
    path = f"{tmp_path}/bin:{os.environ['PATH']}"
    for line, shown_after in examples:
        status = 1 if "fault" in shown_after else 0
        printed = run("sh", "-e", "-c", line, folder=tmp_path, status=status, PATH=path)
        assert shown_after == "" or printed.split() == shown_after.split(), line
    if command == "files":
        [out] = (tmp_path / "out").iterdir()
        assert json.loads(out.read_text()) == {"specifier": (tmp_path / "c.ts").as_uri(), "info": {"script": True}}


@needs_man
def test_example() -> None:
    page = run("man", "--no-hyphenation", "--local-file", PAGE, LC_ALL="C.UTF-8", MANWIDTH="200").translate(TYPESET)
    found = re.search(r"^ +\$ (echo [^|]*)\| module.info (\w+)\n +(\{.*)$", page, re.MULTILINE)
    assert found is not None
    assert run("sh", "-c", f'{found[1]}| "$0" {found[2]}', PROGRAM).strip() == found[3]
