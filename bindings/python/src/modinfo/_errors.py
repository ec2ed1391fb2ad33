"""The errors of this package."""

from collections.abc import Callable
from functools import wraps
from typing import Literal, ParamSpec, TypeVar

from .report import DocumentFault, FaultReport

FaultName = Literal[DocumentFault, "OutOfMemory"]
Arguments = ParamSpec("Arguments")
Result = TypeVar("Result")


class Error(Exception):
    """The base of all errors that this package defines."""


class Fault(Error):
    """A text or a document is refused, or a file can't be read.

    `name` is the kind of fault; docs/FORMATS.md of the repository lists the names. `message` is a sentence, which says
    what is wrong or what was expected. `line` and `character` are the position of the fault in the text that was read,
    from zero; None where the fault has no position. `report` is the report that `check` returns; None for a file that
    can't be read, for a text that isn't UTF-8, and where an allocation failed. `str(fault)` is one line with all of
    these; lines and columns in it count from one.
    """

    def __init__(self, name: FaultName, report: FaultReport | None = None, message: str | None = None) -> None:
        super().__init__(name, report, message)
        self.name: FaultName = name
        self.report = report
        self.message = message or (_sentence(report) if report else "an allocation failed")
        at = report.get("at") if report else None
        self.line = at["line"] if at else None
        self.character = at["column"] if at else None

    def __str__(self) -> str:
        position = _position(self.name, self.report) if self.report else ""
        return f"{self.name}{position}: {shown(self.message)}"


def with_memory_fault(function: Callable[Arguments, Result]) -> Callable[Arguments, Result]:
    """The function, which raises Fault where an allocation fails in Python."""

    @wraps(function)
    def call(*arguments: Arguments.args, **named: Arguments.kwargs) -> Result:
        try:
            return function(*arguments, **named)
        except MemoryError:
            raise Fault("OutOfMemory") from None

    return call


def alone(fault: Fault) -> Fault:
    """The fault without the calls that raised it, which hold the text that was read."""
    return Fault(*fault.args)


def shown(text: str) -> str:
    """The text with everything escaped that a terminal doesn't print: control characters and lone surrogates."""
    return "".join(character if character.isprintable() else ascii(character)[1:-1] for character in text)


def _sentence(report: FaultReport) -> str:
    # Where a syntax error has a message of another form, that follows.
    message = report["expected"].removeprefix("valid syntax: ")
    return f"expected {message}" if message == report["expected"] else message


def _position(name: FaultName, report: FaultReport) -> str:
    position = ""
    if "pointer" in report and name not in ("Syntax", "Defect"):
        position += f" at {shown(report['pointer'])}" if report["pointer"] else " in the whole document"
    if "other" in report:
        position += f" and {shown(report['other'])}"
    if "range" in report:
        start, end = report["range"]
        position += f" (bytes {start} to {end})"
    if "at" in report:
        at = report["at"]
        position += f" at line {at['line'] + 1}, column {at['column'] + 1} (offset {at['offset']})"
    return position
