"""From source texts to what they depend on."""

import json
from collections.abc import Iterable, Iterator
from typing import NamedTuple, cast, get_args

from . import _library
from ._buffers import Buffer, contiguous, is_buffer
from ._errors import Fault, alone, with_memory_fault
from ._lines import in_threads
from .document import MediaType
from .report import FaultReport, Report, TextPlace
from .values import ModuleInfo

# The numbers of media types in the header. Zero is for the media type of the specifier.
_NUMBERS: dict[str | None, int] = {None: 0, **{name: number for number, name in enumerate(get_args(MediaType), 1)}}
Text = str | Buffer


@with_memory_fault
def module_info(text: Text, specifier: str, media_type: MediaType | None = None) -> ModuleInfo:
    """Returns what a module depends on, from its source text, a str or the bytes of its UTF-8.

    `specifier` is the absolute URL of the module. Where `media_type` is None, the specifier's path decides, by its
    ending.

    Raises Fault: Syntax, with the message and the position of the first syntax error; Defect, with a position, where
    what was read isn't the text's, a defect of modinfo; Specifier, where that is no absolute URL; Input, where a text
    isn't UTF-8; OutOfMemory. Raises ValueError where no media type has the name.
    """
    return ModuleInfo.from_dict(json.loads(_line(_arguments(text, specifier, media_type))))


@with_memory_fault
def module_info_json(text: Text, specifier: str, media_type: MediaType | None = None) -> str:
    """Like module_info, but returns the JSON of the ModuleInfo, without a line feed, as `modinfo analyze` prints it."""
    return _line(_arguments(text, specifier, media_type)).decode().removesuffix("\n")


@with_memory_fault
def check_source(text: Text, specifier: str, media_type: MediaType | None = None) -> Report:
    """Returns a report on a source text: where its first syntax error is, or that it is valid.

    `at` in a report is a position in the text. Raises Fault only where an allocation fails, its name OutOfMemory; and
    TypeError and ValueError as module_info does.
    """
    try:
        return _report(_arguments(text, specifier, media_type))
    except Fault as fault:
        if fault.name == "OutOfMemory":
            raise
        return _report_without_the_library(fault, text)


def module_info_many(
    texts: Iterable[tuple[Text, str] | tuple[Text, str, MediaType | None]], jobs: int = 1
) -> Iterator[tuple[str, ModuleInfo | Fault]]:
    """Returns for each text its specifier and what the module depends on, in their order.

    `texts` are tuples of the arguments of module_info. Where a text has a fault, or an allocation fails, the Fault is
    returned, and the next text is read. `jobs` threads work side by side; with more than one, some texts are read
    ahead. Raises others than Fault as module_info does.
    """
    return in_threads(lambda arguments: _keyed(*arguments), texts, jobs)


class _Arguments(NamedTuple):
    """What the library is called with: the text, the specifier and its length, and the number of the media type."""

    text: Buffer
    url: bytes
    length: int
    number: int


def _arguments(text: Text, specifier: str, media_type: MediaType | None) -> _Arguments:
    number = number_of(media_type)
    source = text.encode(errors="surrogatepass") if isinstance(text, str) else text
    if not is_buffer(source):
        raise TypeError(f"a text must be a str or bytes, not {type(text).__name__}")
    if not isinstance(specifier, str):
        raise TypeError(f"specifier must be a str, not {type(specifier).__name__}")
    try:
        url = specifier.encode()
    except UnicodeEncodeError:
        raise Fault("Specifier", message="an absolute URL can't have a lone surrogate") from None
    return _Arguments(contiguous(source), url, len(url), number)


def number_of(media_type: MediaType | None) -> int:
    if media_type not in _NUMBERS:
        raise ValueError(f"media_type must be one of {', '.join(get_args(MediaType))}, not {media_type!r}")
    return _NUMBERS[media_type]


def _line(arguments: _Arguments) -> bytes:
    try:
        return _library.room().call(_library.ANALYZE_SOURCE, *arguments)
    except Fault as fault:
        if fault.name == "Input":
            raise Fault("Input", message="the text isn't UTF-8") from None
        if fault.name == "OutOfMemory":
            raise
        raise Fault(fault.name, cast(FaultReport, _report(arguments))) from None


def _report(arguments: _Arguments) -> Report:
    report: Report = json.loads(_library.room().call(_library.CHECK_SOURCE, *arguments))
    return report


def _report_without_the_library(fault: Fault, text: Text) -> FaultReport:
    """The report on a specifier with a lone surrogate, or on a text that isn't UTF-8."""
    if fault.name == "Specifier":
        return {"fault": "Specifier", "pointer": "/specifier", "expected": "an absolute URL"}
    content = text.encode(errors="surrogatepass") if isinstance(text, str) else bytes(text)
    valid = content[: _length_of_utf_8(content)]
    column = len(valid[valid.rfind(b"\n") + 1 :].decode())
    at: TextPlace = {"line": valid.count(b"\n"), "column": column, "offset": len(valid)}
    return {"fault": "Input", "at": at, "expected": "UTF-8"}


def _length_of_utf_8(content: bytes) -> int:
    try:
        content.decode()
        return len(content)
    except UnicodeDecodeError as error:
        return error.start


def _keyed(text: Text, specifier: str, media_type: MediaType | None = None) -> tuple[str, ModuleInfo | Fault]:
    try:
        return specifier, module_info(text, specifier, media_type)
    except Fault as fault:
        return specifier, alone(fault)
