"""Compiles programs that include include/modinfo.h and modinfo.hpp by each standard that these support, without a
warning. Needs a C and a C++ compiler, and no library."""

import json
import subprocess
from pathlib import Path

import pytest
from installed import ROOT

COMMANDS = json.loads((ROOT / "docs/commands.json").read_text())["commands"]
# Calls each function and uses each constant, so that a macro that isn't an expression is an error too.
CALLS = "".join(
    f"    if (modinfo_{row[kind]['function']}(document, length, {of_text if 'reads_text' in row else ''}answer, room,\n"
    f"            written) == MODINFO_{status}) return MODINFO_FAULT;\n"
    for row in COMMANDS
    for kind, status, of_text in [
        ("answer", "TOO_SMALL", "document, length, MODINFO_OF_SPECIFIER, "),
        ("check", "ANSWERED", "document, length, MODINFO_OTHER, "),
    ]
)
# Those that take the number of a command.
CALLS += "".join(
    f"    if (modinfo_{name}(MODINFO_{command}, document, length, answer, room, written)) return MODINFO_NO_COMMAND;\n"
    for name, command in [("run", "ANALYZE_SOURCE"), ("run_lines", "CHECK_SOURCE")]
)
ARGUMENTS = "const uint8_t *document, size_t length, uint8_t *answer, size_t room, size_t *written"
PROGRAM = f"""#include "modinfo.h"
int use({ARGUMENTS});
int use({ARGUMENTS})
{{
    static const char version[] = MODINFO_VERSION_STRING;
    if (modinfo_version() != MODINFO_VERSION || sizeof version < 2) return MODINFO_FAULT;
{CALLS}    return modinfo_lines(MODINFO_CHECK_ESTREE, document, length, answer, room, written);
}}
"""
# The functions over char, which need no cast.
TEXTS = """#include "modinfo.h"
int use(const char *text, size_t length, char *answer, size_t room, size_t *written);
int use(const char *text, size_t length, char *answer, size_t room, size_t *written)
{
    if (modinfo_run_text(MODINFO_REACH, text, length, answer, room, written) == MODINFO_FAULT) return 1;
    if (modinfo_check_text(text, length, "a:", 2, MODINFO_JSON, answer, room, written) == MODINFO_FAULT) return 1;
    return modinfo_analyze_text(text, length, "a:", 2, MODINFO_OF_SPECIFIER, answer, room, written);
}
"""


def compiled(folder: Path, source: str, compiler: str, *options: str) -> "subprocess.CompletedProcess[str]":
    file = folder / ("program.cc" if compiler == "c++" else "program.c")
    file.write_text(source)
    warnings = ["-Wall", "-Wextra", "-Werror"]
    words = [compiler, *options, *warnings, f"-I{ROOT}/include", "-c", "-o", folder / "made.o", file]
    return subprocess.run(words, capture_output=True, text=True)


@pytest.mark.parametrize("standard", "c89 c99 c11 c17 c++98 c++11 c++17 c++20".split())
def test_the_header_by_each_standard(tmp_path: Path, standard: str) -> None:
    run = compiled(tmp_path, PROGRAM, "c++" if "+" in standard else "cc", f"-std={standard}", "-pedantic-errors")
    assert run.returncode == 0, run.stderr


@pytest.mark.parametrize("standard", "c99 c11 c17 c++98 c++11 c++17 c++20".split())
def test_texts_by_each_standard_with_inline_functions(tmp_path: Path, standard: str) -> None:
    words = f"-std={standard}", "-pedantic-errors", "-Wshadow", "-Wconversion"
    run = compiled(tmp_path, TEXTS, "c++" if "+" in standard else "cc", *words)
    assert run.returncode == 0, run.stderr


@pytest.mark.parametrize("standard", "c++17 c++20 c++23".split())
def test_the_header_of_strings(tmp_path: Path, standard: str) -> None:
    """Two files of a program may include it."""
    program = '#include "modinfo.hpp"\n#include "modinfo.hpp"\nstd::string use();\n'
    program += 'std::string use() { return modinfo::module_info("", "file:///a.js"); }\n'
    run = compiled(tmp_path, program, "c++", f"-std={standard}", "-pedantic-errors", "-Wshadow", "-Wconversion")
    assert run.returncode == 0, run.stderr


def test_a_null_pointer_that_the_compiler_sees(tmp_path: Path) -> None:
    function = "int use(uint8_t *answer, size_t *written)"
    call = "return modinfo_analyze(NULL, 1, answer, 1, written);"
    run = compiled(tmp_path, f'#include "modinfo.h"\n{function};\n{function} {{ {call} }}\n', "cc")
    assert run.returncode != 0 and "nonnull" in run.stderr
