"""What one JavaScript or TypeScript module depends on, from its source text.

`module_info` reads a text, `files` reads files. Others read documents: mappings, their JSON as a str, or as bytes in
UTF-8. docs/FORMATS.md of the repository has all formats, docs/ESTREE.md that of trees of parsers. Calls
may run in many threads at once. Each thread keeps at most 1 MiB of memory between calls.
"""

import json
import re
from collections.abc import Iterable, Iterator, Mapping
from typing import Any, Literal, cast

from . import _library
from ._buffers import Buffer
from ._errors import Error, Fault, FaultName, alone, with_memory_fault
from ._estree import Comments, Offsets, estree_json
from ._files import file_url, files, read_file
from ._json import Document, bytes_of
from ._lines import answer_lines, in_threads
from ._source import check_source, module_info, module_info_json, module_info_many
from .document import MediaType, ModuleDocument
from .information import DynamicKind
from .information import ModuleInfo as ModuleInfoDict
from .information import ResolutionMode, StaticKind
from .report import DocumentFault, FaultReport, Report, ReportWarning, ValidReport
from .values import (
    Dependency,
    DynamicArgument,
    DynamicDependency,
    ExpressionPart,
    ImportAttribute,
    ImportAttributes,
    JsdocImport,
    KnownAttributes,
    ModuleInfo,
    PathReference,
    Position,
    Range,
    Reference,
    Specifier,
    StaticDependency,
    StringPart,
    TemplatePart,
    TypesReference,
)

__version__ = "0.1.0"
__all__ = [
    "Buffer",
    "Command",
    "Dependency",
    "Document",
    "DocumentFault",
    "DynamicArgument",
    "DynamicDependency",
    "DynamicKind",
    "Error",
    "ExpressionPart",
    "Fault",
    "FaultName",
    "FaultReport",
    "ImportAttribute",
    "ImportAttributes",
    "JsdocImport",
    "KnownAttributes",
    "MediaType",
    "ModuleDocument",
    "ModuleInfo",
    "ModuleInfoDict",
    "Offsets",
    "PathReference",
    "Position",
    "Range",
    "Reference",
    "Report",
    "ReportWarning",
    "ResolutionMode",
    "Specifier",
    "StaticDependency",
    "StaticKind",
    "StringPart",
    "TemplatePart",
    "TypesReference",
    "ValidReport",
    "analyze",
    "analyze_estree",
    "analyze_estree_lines",
    "analyze_lines",
    "analyze_many",
    "analyze_source_lines",
    "check",
    "check_estree",
    "check_estree_lines",
    "check_lines",
    "check_source",
    "check_source_lines",
    "convert",
    "convert_lines",
    "file_url",
    "files",
    "module_info",
    "module_info_json",
    "module_info_many",
    "reach",
    "reach_lines",
    "read_file",
    "version",
]

Command = Literal["analyze", "analyze_estree", "analyze_source", "convert", "reach"]
# A specifier at the front of a document's JSON, where most writers put it.
_FIRST_SPECIFIER = re.compile(rb'\s*\{\s*"specifier"\s*:\s*("[^"\\]*(?:\\.[^"\\]*)*")')
# The name of a member `specifier`, each letter of which may be escaped.
_SPECIFIER_NAME = re.compile(b'"%b"\\s*:' % b"".join(rb"(?:%c|\\u00%02x)" % (each, each) for each in b"specifier"))


@with_memory_fault
def analyze(document: Document) -> ModuleInfoDict:
    """Returns what a module depends on, from its source, tree and comments.

    `ModuleInfo.from_dict` makes a dataclass of it. Raises Fault where the document is refused or an allocation fails,
    and TypeError where the document has another type. A mapping that json.dumps can't write raises what that raises:
    TypeError, ValueError or RecursionError.
    """
    information: ModuleInfoDict = _answer("analyze", document)
    return information


@with_memory_fault
def analyze_estree(
    specifier: str,
    media_type: MediaType,
    source: str,
    program: Mapping[str, object],
    comments: Comments | None = None,
    offsets: Offsets = "utf16",
) -> ModuleInfoDict:
    """Returns what a module depends on, from its source and the tree of a parser, as ESTree describes it.

    `comments` are all comments of the source, each with "start" and "end" or with "range"; by default those of the
    program. `offsets` is what tree and comments count, UTF-16 units or bytes of UTF-8. docs/ESTREE.md of the
    repository describes which trees are read. Leave out what JSON can't hold, as links to parents, compiled regular
    expressions and infinite numbers. A string with a lone surrogate is handed on as the list of its UTF-16 units.

    Raises Fault as analyze does. A tree that json.dumps can't write raises what that raises: TypeError, ValueError or
    RecursionError.
    """
    document = estree_json(specifier, media_type, source, program, comments, offsets)
    information: ModuleInfoDict = _answer("analyze_estree", document)
    return information


@with_memory_fault
def convert(document: Document) -> Any:
    """Returns the information of one module in version 2, from that which version 1 stored.

    Any other JSON stays as it is. Raises as analyze does.
    """
    return _answer("convert", document)


@with_memory_fault
def reach(document: Document) -> list[str]:
    """Returns the keys that a root reaches among modules, ascending: `{"root": KEY, "modules": {KEY: INFO}}`.

    Raises as analyze does.
    """
    keys: list[str] = _answer("reach", document)
    return keys


@with_memory_fault
def check(document: Document, command: Command = "analyze") -> Report:
    """Returns a report on a document of a command: what is wrong with it and where, or that it is valid.

    `at` in the report of a mapping is a position in what json.dumps makes of it, without white space. Raises Fault
    only where an allocation fails, its name OutOfMemory; ValueError where there is no such command; and TypeError
    and others as analyze does.
    """
    return cast(Report, json.loads(_library.room().call(_command(command).check.one, bytes_of(document))))


@with_memory_fault
def check_estree(
    specifier: str,
    media_type: MediaType,
    source: str,
    program: Mapping[str, object],
    comments: Comments | None = None,
    offsets: Offsets = "utf16",
) -> Report:
    """Returns a report on what analyze_estree reads: what is wrong with it and where, or that it is valid.

    A pointer leads into the document of docs/ESTREE.md. Where tree and source don't fit, the report has the range in
    bytes of UTF-8, whatever `offsets` is, and no pointer. Raises Fault only where an allocation fails, and others as
    analyze_estree does.
    """
    return check(estree_json(specifier, media_type, source, program, comments, offsets), "analyze_estree")


def analyze_many(documents: Iterable[Document], jobs: int = 1) -> Iterator[tuple[str, ModuleInfo | Fault]]:
    """Returns for each document its specifier and what the module depends on, in their order.

    Where a document has a fault, or an allocation fails, the Fault is returned, and the next document is read. The
    specifier is empty where a document has none that can be read. `jobs` threads work side by side; with more than one,
    some documents are read ahead. Raises others than Fault as analyze does.
    """
    return in_threads(_keyed, documents, jobs)


def analyze_lines(lines: Iterable[Buffer], jobs: int = 1) -> Iterator[bytes]:
    """Returns for each line what `modinfo analyze --lines` prints for it, with a line feed.

    A line is the JSON of one document, with or without a line feed after it. Where a document has a fault, or an
    allocation fails, `{"fault":NAME}` is returned, and the next line is read. `jobs` threads work side by side; with
    more than one, lines are read ahead. Raises TypeError where a line isn't bytes.
    """
    return _lines("analyze", lines, jobs)


def analyze_estree_lines(lines: Iterable[Buffer], jobs: int = 1) -> Iterator[bytes]:
    """Like analyze_lines, for documents of docs/ESTREE.md."""
    return _lines("analyze_estree", lines, jobs)


def analyze_source_lines(lines: Iterable[Buffer], jobs: int = 1) -> Iterator[bytes]:
    """Like analyze_lines, for `modinfo analyze --source --lines`."""
    return _lines("analyze_source", lines, jobs)


def convert_lines(lines: Iterable[Buffer], jobs: int = 1) -> Iterator[bytes]:
    """Like analyze_lines, for `modinfo convert --lines`."""
    return _lines("convert", lines, jobs)


def reach_lines(lines: Iterable[Buffer], jobs: int = 1) -> Iterator[bytes]:
    """Like analyze_lines, for `modinfo reach --lines`."""
    return _lines("reach", lines, jobs)


def check_lines(lines: Iterable[Buffer], command: Command = "analyze", jobs: int = 1) -> Iterator[bytes]:
    """Returns for each line the report that `modinfo check COMMAND --lines` prints for it, as analyze_lines does."""
    return answer_lines(_command(command).check, lambda line: line, lines, jobs)


def check_estree_lines(lines: Iterable[Buffer], jobs: int = 1) -> Iterator[bytes]:
    """Like check_lines, for documents of docs/ESTREE.md."""
    return check_lines(lines, "analyze_estree", jobs)


def check_source_lines(lines: Iterable[Buffer], jobs: int = 1) -> Iterator[bytes]:
    """Like check_lines, for documents of `modinfo analyze --source`."""
    return check_lines(lines, "analyze_source", jobs)


def version() -> str:
    """Returns the version of the library."""
    return _library.version()


def _lines(command: Command, lines: Iterable[Buffer], jobs: int) -> Iterator[bytes]:
    return answer_lines(_library.COMMANDS[command].answer, lambda line: b'{"answer":%b}\n' % line[:-1], lines, jobs)


def _keyed(document: Document) -> tuple[str, ModuleInfo | Fault]:
    specifier = ""
    try:
        read = bytes_of(document)
        specifier = _specifier(document, read)
        return specifier, ModuleInfo.from_dict(_answer("analyze", read))
    except Fault as fault:
        return specifier, alone(fault)
    except MemoryError:
        return specifier, Fault("OutOfMemory")


def _specifier(document: Document, read: Buffer) -> str:
    """The specifier of a document: of several the last, as the library reads it."""
    try:
        if not isinstance(document, Mapping):
            # Most documents have one, at the front: then nothing else is parsed.
            found = _FIRST_SPECIFIER.match(read)
            if found and _SPECIFIER_NAME.search(read, found.end()):
                found = None
            document = {"specifier": json.loads(found[1])} if found else json.loads(bytes(read))
        specifier = document.get("specifier")
    except (ValueError, AttributeError, RecursionError):
        return ""
    return specifier if isinstance(specifier, str) else ""


def _command(name: str) -> _library.Command:
    if name not in _library.COMMANDS:
        raise ValueError(f"command must be one of {', '.join(_library.COMMANDS)}, not {name!r}")
    return _library.COMMANDS[name]


def _answer(name: Command, document: Document) -> Any:
    return json.loads(_answer_line(name, bytes_of(document)))


def _answer_line(name: Command, document: Buffer) -> bytes:
    command = _library.COMMANDS[name]
    try:
        return _library.room().call(command.answer.one, document)
    except Fault as fault:
        raise Fault(fault.name, _report(command, fault, document)) from None


def _report(command: _library.Command, fault: Fault, document: Buffer) -> FaultReport | None:
    """The report on a document that was refused. None where an allocation failed."""
    if fault.name == "OutOfMemory":
        return None
    try:
        return cast(FaultReport, json.loads(_library.room().call(command.check.one, document)))
    except Fault:
        return None
