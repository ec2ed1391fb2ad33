"""Holds the types of modinfo.report against docs/report.schema.json."""

from typing import Any, get_args

import pytest
from schemas import Schema, typed

import modinfo
from modinfo import report

SCHEMA = Schema("report")


@pytest.mark.parametrize(
    "name, annotation",
    [
        ("validReport", report.ValidReport),
        ("faultReport", report.FaultReport),
        ("documentFault", modinfo.DocumentFault),
        ("warning", report.ReportWarning),
        ("pointer", report.Pointer),
        ("range", report.ByteRange),
        ("textPlace", report.TextPlace),
    ],
)
def test_a_type(name: str, annotation: Any) -> None:
    assert typed(annotation) == SCHEMA.definition(name)


def test_the_whole() -> None:
    assert typed(modinfo.Report) == SCHEMA.described()


def test_that_a_report_has_each_fault_but_that_of_memory() -> None:
    assert {*get_args(modinfo.DocumentFault), "OutOfMemory"} == set(get_args(modinfo.FaultName))
