"""Memory in this package: what is kept of it, and a process that may have little more than it has."""

import subprocess
import sys
import tracemalloc
from typing import get_args

import pytest

import modinfo

# A line, and less room than its answer is given.
LIMITED = """
import resource
import modinfo

LINE = {line} * 200_000_000
with open("/proc/self/statm") as file:
    size = int(file.read().split()[0]) * resource.getpagesize()
resource.setrlimit(resource.RLIMIT_AS, (size + 100_000_000, -1))
"""


def printed(program: str, line: str = "b' '") -> str:
    command = [sys.executable, "-I", "-c", LIMITED.format(line=line) + program]
    run = subprocess.run(command, capture_output=True, text=True, timeout=60, check=False)
    assert (run.stderr, run.returncode) == ("", 0)
    return run.stdout


@pytest.mark.parametrize("jobs", [1, 2])
def test_a_line_without_memory_among_others(jobs: int) -> None:
    program = f"print(list(modinfo.analyze_lines([b'{{', LINE, b'{{'], jobs={jobs})))"
    fault = b'{"fault":"%b"}\n'
    assert printed(program) == f"{[fault % b'Json', fault % b'OutOfMemory', fault % b'Json']}\n"


LINES = pytest.mark.parametrize("line", ["b' '", "' '"])


@LINES
@pytest.mark.parametrize("function", ["analyze", "check", "convert", "reach"])
def test_a_document_without_memory(function: str, line: str) -> None:
    program = f"""
try:
    modinfo.{function}(LINE)
except modinfo.Fault as fault:
    print(fault.name, fault.report)
"""
    assert printed(program, line) == "OutOfMemory None\n"


@pytest.mark.parametrize("function", ["analyze_estree", "check_estree"])
def test_a_tree_without_memory(function: str) -> None:
    program = f"""
try:
    modinfo.{function}("file:///a.js", "JavaScript", LINE, dict())
except modinfo.Fault as fault:
    print(fault.name, fault.report)
"""
    assert printed(program, "' '") == "OutOfMemory None\n"


@LINES
def test_a_text_without_memory(line: str) -> None:
    program = """
try:
    modinfo.module_info(LINE, "file:///a.ts")
except modinfo.Fault as fault:
    print(fault)
"""
    assert printed(program, line) == "OutOfMemory: an allocation failed\n"


@LINES
def test_one_of_many_documents_without_memory(line: str) -> None:
    program = "print([(key, str(found)) for key, found in modinfo.analyze_many([LINE, '{'])])"
    broken = "Json at line 1, column 2 (offset 1): expected one JSON value, at most 127 deep"
    wanted = [("", "OutOfMemory: an allocation failed"), ("", broken)]
    assert printed(program, line) == f"{wanted}\n"


@pytest.mark.parametrize("end, wanted", [(b"1", b'{"answer":1}\n'), (b"", b'{"fault":"Json"}\n')])
def test_that_at_most_a_mebibyte_is_kept_after_a_call(end: bytes, wanted: bytes) -> None:
    tracemalloc.start()
    try:
        assert list(modinfo.convert_lines([b" " * 10_000_000 + end])) == [wanted]
        kept, most = tracemalloc.get_traced_memory()
    finally:
        tracemalloc.stop()
    assert kept < 1 << 20 and most > 10_000_000


def test_that_the_fault_has_a_name() -> None:
    assert "OutOfMemory" in get_args(modinfo.FaultName)
