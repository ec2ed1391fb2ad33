"""The test cases of docs/ROWS.md that run the program on one command, through the package."""

import json
from typing import get_args

import pytest
from repository import CASES, answer, blocks, program_cases

import modinfo

ANSWERED, FAULT = 0, 1
ALL = list(program_cases(CASES))
REFUSED = [case for case in ALL if case[3] == FAULT]
ANSWERS = [case for case in ALL if case[3] == ANSWERED]


@pytest.mark.parametrize("name, command, document, status, fault", REFUSED, ids=lambda part: str(part)[:60])
def test_a_case_that_is_refused(name: str, command: str, document: bytes, status: int, fault: bytes) -> None:
    with pytest.raises(modinfo.Fault) as refused:
        answer(command, document)
    assert refused.value.name == fault.decode()
    assert str(refused.value).startswith(f"{fault.decode()} ") and len(str(refused.value).splitlines()) == 1


@pytest.mark.parametrize("name, command, document, status, wanted", ANSWERS, ids=lambda part: str(part)[:60])
def test_a_case_that_is_answered(name: str, command: str, document: bytes, status: int, wanted: bytes) -> None:
    assert answer(command, document) == json.loads(wanted)


def test_that_cases_have_each_fault_but_those_of_memory_and_defects() -> None:
    assert {case[4].decode() for case in REFUSED} | {"OutOfMemory", "Defect"} == set(get_args(modinfo.FaultName))


def test_that_the_version_is_the_program_s() -> None:
    cases = [dict(case) for case in blocks((CASES / "program.rows").read_text())]
    printed = [case["output"] for case in cases if case["call"] == "serve --version"]
    assert printed == [f"modinfo {modinfo.__version__}"] == [f"modinfo {modinfo.version()}"]
