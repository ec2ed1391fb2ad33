"""From source texts to what they depend on."""

import re
from collections.abc import Callable
from pathlib import Path
from typing import Any, get_args

import pytest
from repository import ROOT, SOURCES, output_of

import modinfo


@pytest.mark.parametrize("path, wanted", SOURCES, ids=lambda part: getattr(part, "name", ""))
def test_an_example(path: Path, wanted: dict[str, Any]) -> None:
    text = path.read_text()
    line = output_of(path).read_text().removesuffix("\n")
    for form in text, text.encode(), bytearray(text.encode()), memoryview(text.encode()):
        assert modinfo.module_info(form, path.as_uri()).to_dict() == wanted
        assert modinfo.module_info_json(form, path.as_uri()) == line
        assert modinfo.check_source(form, path.as_uri()) == {"valid": True}


def test_a_media_type() -> None:
    """A cast with angle brackets is TypeScript, and no TSX."""
    text = "let a = <T>b;"
    for function in modinfo.module_info, modinfo.module_info_json, modinfo.check_source:
        assert function(text, "file:///a", "TypeScript") == function(text, "file:///a.ts")
        with pytest.raises(ValueError, match="^media_type must be one of JavaScript, Jsx, .*, Other, not 'ts'$"):
            function(text, "file:///a.ts", "ts")  # type: ignore[arg-type]
    for refused in modinfo.module_info, modinfo.module_info_json:
        with pytest.raises(modinfo.Fault, match="^Syntax "):
            refused(text, "file:///a.ts", "Tsx")
    assert "fault" in modinfo.check_source(text, "file:///a.ts", "Tsx")


def test_that_media_types_have_the_numbers_of_the_header() -> None:
    names = re.findall(r"MODINFO_(\w+) = (\d+)", (ROOT / "include/modinfo.h").read_text().split("OF_SPECIFIER = 0")[1])
    numbers = {name: int(number) for name, number in names if int(number) <= len(get_args(modinfo.MediaType))}
    assert {name.upper(): number for number, name in enumerate(get_args(modinfo.MediaType), 1)} == numbers


def test_a_syntax_error() -> None:
    with pytest.raises(modinfo.Fault) as refused:
        modinfo.module_info("// é\nimport {", "file:///a.ts")
    fault = refused.value
    assert (fault.name, fault.line, fault.character) == ("Syntax", 1, 8)
    assert fault.message and str(fault) == f"Syntax at line 2, column 9 (offset 14): {fault.message}"
    assert fault.report == modinfo.check_source("// é\nimport {", "file:///a.ts")
    assert fault.report["pointer"] == "/source" and fault.report["expected"] in fault.message


@pytest.mark.parametrize(
    "text, specifier, name",
    [(b"\xff", "file:///a.ts", "Input"), ("\ud800", "file:///a.ts", "Input"), ("", "a.ts", "Specifier")]
    + [("", "file:///\ud800.ts", "Specifier")],
    ids=ascii,
)
def test_another_fault(text: str | bytes, specifier: str, name: str) -> None:
    for function in modinfo.module_info, modinfo.module_info_json:
        with pytest.raises(modinfo.Fault) as refused:
            function(text, specifier)
        assert (refused.value.name, refused.value.line) == (name, None)


@pytest.mark.parametrize(
    "text, line, column, offset",
    [
        (b"\xff", 0, 0, 0),
        ("a\n\u00e9\n\u65e5\ud800", 2, 1, 8),
        (b"\r\xe6\x97", 0, 1, 1),
        (memoryview(b"a\xf0\x9f\x98\x80\xf0\x9f\x98"), 0, 2, 5),
    ],
    ids=ascii,
)
def test_the_report_on_a_text_that_is_not_utf_8(text: Any, line: int, column: int, offset: int) -> None:
    """Where the text stops being UTF-8."""
    at = {"line": line, "column": column, "offset": offset}
    assert modinfo.check_source(text, "file:///a.ts") == {"fault": "Input", "at": at, "expected": "UTF-8"}


@pytest.mark.parametrize("specifier", ["a.ts", "", "file:///\ud800.ts"], ids=ascii)
def test_the_report_on_a_specifier(specifier: str) -> None:
    report = modinfo.check_source("", specifier)
    assert report == {"fault": "Specifier", "pointer": "/specifier", "expected": "an absolute URL"}


FUNCTIONS: list[Callable[..., Any]] = [modinfo.module_info, modinfo.module_info_json, modinfo.check_source]


@pytest.mark.parametrize("function", FUNCTIONS)
@pytest.mark.parametrize("text", [None, 1, ["import 'a'"]], ids=repr)
def test_a_text_of_another_type(text: Any, function: Callable[..., Any]) -> None:
    with pytest.raises(TypeError, match=f"not {type(text).__name__}$"):
        function(text, "file:///a.ts")


@pytest.mark.parametrize("function", FUNCTIONS)
@pytest.mark.parametrize("specifier", [None, b"file:///a.ts"], ids=repr)
def test_a_specifier_of_another_type(specifier: Any, function: Callable[..., Any]) -> None:
    with pytest.raises(TypeError, match=f"^specifier must be a str, not {type(specifier).__name__}$"):
        function("", specifier)


@pytest.mark.parametrize("jobs", [1, 3])
def test_many_texts(jobs: int) -> None:
    """In their order, those with a fault too."""
    texts = [(path.read_bytes(), path.as_uri()) for path, _ in SOURCES] * 20
    infos = [(path.as_uri(), modinfo.ModuleInfo.from_dict(wanted)) for path, wanted in SOURCES] * 20
    assert list(modinfo.module_info_many(texts, jobs)) == infos
    others: list[Any] = [("let a = <T>b;", "a:b", "Tsx"), ("let a = <T>b;", "a:b", "Mts"), (b"\xff", "a:c"), ("", "")]
    found = list(modinfo.module_info_many(iter(others), jobs))
    assert [specifier for specifier, _ in found] == ["a:b", "a:b", "a:c", ""]
    assert [getattr(each, "name", each) for _, each in found] == [
        "Syntax",
        modinfo.ModuleInfo(script=True),
        "Input",
        "Specifier",
    ]
    # A list of faults doesn't hold the texts that were read.
    assert all(each.__traceback__ is None for _, each in found if isinstance(each, modinfo.Fault))


@pytest.mark.parametrize("jobs", [1, 3])
def test_a_wrong_one_of_many_texts(jobs: int) -> None:
    texts: list[Any] = [("", "a:b"), ("", "a:c", "ts")]
    found = modinfo.module_info_many(texts, jobs)
    assert next(found) == ("a:b", modinfo.ModuleInfo(script=True))
    with pytest.raises(ValueError, match="^media_type must be one of "):
        next(found)
