"""Tests the library for C in build/, or in the folder that MODINFO_LIB_DIR names: what it exports, its name for the
loader, its version, that no call copies its document, and under sanitizers the rooms of the header and the calls of
C++."""

import json
import os
import re
from pathlib import Path

import pytest
from installed import FUNCTIONS, ROOT, VERSION, run

LIBRARIES = Path(os.environ.get("MODINFO_LIB_DIR", ROOT / "build"))
ARCHIVE, SHARED = LIBRARIES / "libmodinfo.a", LIBRARIES / "libmodinfo.so"
TESTS = ROOT / "packaging/tests"
NUMBERS = """\
#include <stdio.h>
#include "modinfo.h"

int main(void)
{
    printf("%u %d %s\\n", modinfo_version(), MODINFO_VERSION, MODINFO_VERSION_STRING);
    printf("%d.%d.%d\\n", MODINFO_VERSION_MAJOR, MODINFO_VERSION_MINOR, MODINFO_VERSION_PATCH);
}
"""
# For each number of a media type the status, the length, and whether the first byte of the room was written to; then
# the room that a call without room says, and the status of a call with it.
STATUSES = """\
#include <stdio.h>
#include <string.h>
#include "modinfo.h"

int main(void)
{
    static const char text[] = "0";
    char answer[999];
    size_t length, needed;
    for (int number = 0; number < 256; number++) {
        answer[0] = 'x';
        uint8_t status = modinfo_analyze_text(text, strlen(text), "a:", 2, (uint8_t)number, answer, 999, &length);
        answer[1] = 'x';
        uint8_t checked = modinfo_check_text(text, strlen(text), "a:", 2, (uint8_t)number, answer + 1, 998, &needed);
        printf("%d %d %d %d %d\\n", status, length > 0, answer[0] != 'x', checked, answer[1] != 'x');
    }
    uint8_t status = modinfo_analyze_text(text, strlen(text), "a:", 2, MODINFO_JSX, answer, 0, &needed);
    printf("%d ", status);
    status = modinfo_analyze_text(text, strlen(text), "a:", 2, MODINFO_JSX, answer, needed, &length);
    printf("%d %d\\n", status, needed == length);
    return 0;
}
"""


def compiled(folder: Path, source: Path, *options: str) -> Path:
    program = folder / "program"
    words = ["cc", "-std=c11"] if source.suffix == ".c" else ["c++", "-std=c++17", "-pthread"]
    run(*words, "-Wall", "-Wextra", "-Werror", *options, f"-I{ROOT}/include", "-o", program, source, ARCHIVE)
    return program


@pytest.mark.parametrize(
    "words", [["--extern-only", ARCHIVE], ["--dynamic", SHARED]], ids=["the archive", "the shared library"]
)
def test_exported_functions(words: list[str | Path]) -> None:
    exported = run("nm", "--defined-only", "--format=posix", *words)
    assert {line.split()[0] for line in exported.splitlines() if " " in line} == FUNCTIONS


def test_names_for_the_loader() -> None:
    printed = run("readelf", "--dynamic", "--wide", SHARED)
    assert re.findall(r"\(SONAME\).*\[(.*)\]", printed) == [f"libmodinfo.so.{VERSION.split('.')[0]}"]
    assert re.findall(r"\(NEEDED\).*\[(.*)\]", printed) == ["libc.so.6"]


def test_versions(tmp_path: Path) -> None:
    """Those of the header, of the library, and of --version as a test case has it."""
    (tmp_path / "version.c").write_text(NUMBERS)
    major, minor, patch = map(int, VERSION.split("."))
    number = major * 10000 + minor * 100 + patch
    assert run(compiled(tmp_path, tmp_path / "version.c")) == f"{number} {number} {VERSION}\n{VERSION}\n"
    rows = (ROOT / "crates/test_replay/data/program.rows").read_text()
    assert f"call serve --version\noutput modinfo {VERSION}\n" in rows


def test_numbers_of_media_types(tmp_path: Path) -> None:
    """One that is none has a status of its own. JSON has no grammar of modules."""
    (tmp_path / "statuses.c").write_text(STATUSES)
    printed = run(compiled(tmp_path, tmp_path / "statuses.c", "-g", "-fsanitize=address,undefined")).splitlines()
    names = json.loads((ROOT / "docs/document.schema.json").read_text())["properties"]["mediaType"]["enum"]
    named = ["1 1 1 0 1" if name == "Json" else "0 1 1 0 1" for name in ["", *names]]
    assert printed == named + ["3 0 0 3 0"] * (256 - len(named)) + ["2 0 1"]


def test_no_call_copies_its_document(tmp_path: Path) -> None:
    assert run(compiled(tmp_path, TESTS / "allocated.c")) == "16 calls, 0 copies\n"


def test_rooms_that_are_enough(tmp_path: Path) -> None:
    printed = run(compiled(tmp_path, TESTS / "rooms.c", "-g", "-fsanitize=address,undefined"))
    assert re.fullmatch(r"[1-9]\d+ calls, 0 with too little room\n", printed)


@pytest.mark.parametrize("sanitizer", ["address,undefined", "thread"])
def test_strings_of_cpp(tmp_path: Path, sanitizer: str) -> None:
    assert run(compiled(tmp_path, TESTS / "strings.cc", "-g", f"-fsanitize={sanitizer}")) == ""
