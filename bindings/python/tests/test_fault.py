"""The error of a refused document: its report, and its line for a person."""

import pickle
from typing import Any

import pytest

import modinfo
from modinfo import FaultReport

PROGRAM: dict[str, Any] = {
    "specifier": "file:///a.ts",
    "mediaType": "TypeScript",
    "source": "",
    "program": {"range": [0, 16], "body": []},
}


def test_a_fault_with_its_place() -> None:
    with pytest.raises(modinfo.Fault) as refused:
        modinfo.analyze(PROGRAM)
    assert refused.value.report == modinfo.check(PROGRAM)
    assert str(refused.value) == (
        "RangeOutside at /program/range (bytes 0 to 16): expected an end of at most 0, the source's length"
    )


# Reports as docs/FORMATS.md describes them, and the message of their error.
LINES: list[tuple[FaultReport | None, str]] = [
    ({"fault": "Tree", "pointer": "", "expected": "an object"}, "Tree in the whole document: expected an object"),
    (
        {"fault": "CommentsOverlap", "pointer": "/b", "other": "/a", "range": [0, 2], "expected": "c"},
        "CommentsOverlap at /b and /a (bytes 0 to 2): expected c",
    ),
    (
        {"fault": "Json", "at": {"line": 2, "column": 6, "offset": 24}, "expected": "a value"},
        "Json at line 3, column 7 (offset 24): expected a value",
    ),
    (
        {"fault": "Tree", "pointer": "/\x1b[2J\n\x9b\ud800\u2028é", "expected": "a"},
        "Tree at /\\x1b[2J\\n\\x9b\\ud800\\u2028é: expected a",
    ),
    (
        {
            "fault": "Syntax",
            "pointer": "/source",
            "at": {"line": 2, "column": 6, "offset": 24},
            "expected": "valid syntax: a",
        },
        "Syntax at line 3, column 7 (offset 24): a",
    ),
    (None, "OutOfMemory: an allocation failed"),
]


@pytest.mark.parametrize("report, line", LINES, ids=[line for _, line in LINES])
def test_the_line_of_a_fault(report: FaultReport | None, line: str) -> None:
    fault = modinfo.Fault(report["fault"] if report else "OutOfMemory", report)
    assert str(fault) == line
    again = pickle.loads(pickle.dumps(fault))
    assert (type(again), again.name, again.report, str(again)) == (modinfo.Fault, fault.name, report, line)


def test_what_a_fault_has() -> None:
    fault = modinfo.Fault(
        "Json", {"fault": "Json", "at": {"line": 2, "column": 6, "offset": 24}, "expected": "a value"}
    )
    assert (fault.message, fault.line, fault.character) == ("expected a value", 2, 6)
    fault = modinfo.Fault("Input", message="No such file")
    assert (str(fault), fault.line, fault.character, fault.report) == ("Input: No such file", None, None, None)
    assert isinstance(fault, modinfo.Error)
