import ctypes
import json
from typing import Any, get_args

import pytest
from repository import CASES, EXAMPLES, check_cases, examples

import modinfo
from modinfo import _library

SIDE_EFFECT_IMPORT: dict[str, Any] = json.loads((EXAMPLES / "side-effect-import.json").read_text())
UNREAD = "nothing reads a member of this name here"


def changed(**members: Any) -> dict[str, Any]:
    return {**SIDE_EFFECT_IMPORT, **members}


def with_item(**members: Any) -> dict[str, Any]:
    """The document whose import has these members too."""
    [item] = SIDE_EFFECT_IMPORT["program"]["body"]
    return changed(program={"range": [0, 16], "body": [{**item, **members}]})


def with_comments(*comments: tuple[list[int], str]) -> dict[str, Any]:
    """A document of nothing but a line comment, with these filed."""
    filed = [{"kind": "line", "range": range, "text": text} for range, text in comments]
    return changed(source="//b", program={"range": [3, 3], "body": []}, leading=[{"pos": 3, "comments": filed}])


OVERFLOWING = {"leadingComments": [{"range": [[0, 2**64 - 1], [0, 0]], "text": "@deno-types=a"}]}

# A command, a document, and the report on it, but for what was expected.
FAULTS: list[tuple[modinfo.Command, modinfo.Document, dict[str, Any]]] = [
    ("analyze", b'{"gr\xc3\xb6\xc3\x9fe":"\xff"}', {"fault": "Input", "at": {"line": 0, "column": 10, "offset": 12}}),
    ("analyze", '{\n "größe": 1,\n "ä": ]\n}', {"fault": "Json", "at": {"line": 2, "column": 6, "offset": 24}}),
    ("analyze", "", {"fault": "Json", "at": {"line": 0, "column": 0, "offset": 0}}),
    ("analyze", {}, {"fault": "Tree", "pointer": ""}),
    ("analyze", changed(mediaType="js"), {"fault": "Tree", "pointer": "/mediaType"}),
    ("analyze", changed(specifier="./b.ts"), {"fault": "Specifier", "pointer": "/specifier"}),
    (
        "analyze",
        changed(program={"range": [1, 0], "body": []}),
        {"fault": "RangeReversed", "pointer": "/program/range", "range": [1, 0]},
    ),
    (
        "analyze",
        with_item(range=[0, 99]),
        {"fault": "RangeOutside", "pointer": "/program/body/0/range", "range": [0, 99]},
    ),
    (
        "analyze",
        changed(source="é", program={"range": [1, 2], "body": []}),
        {"fault": "RangeOffBoundary", "pointer": "/program/range", "range": [1, 2]},
    ),
    (
        "analyze",
        with_comments(([0, 3], "a")),
        {"fault": "CommentText", "pointer": "/leading/0/comments/0", "range": [0, 3]},
    ),
    (
        "analyze",
        with_comments(([0, 3], "b"), ([0, 2], "")),
        {
            "fault": "CommentsOverlap",
            "pointer": "/leading/0/comments/1",
            "other": "/leading/0/comments/0",
            "range": [0, 2],
        },
    ),
    ("analyze", with_item(hasWith=True), {"fault": "Shape", "pointer": "/program/body/0", "range": [0, 16]}),
    (
        "analyze_source",
        {"specifier": "file:///a.ts", "source": "\nimport {"},
        {"fault": "Syntax", "pointer": "/source", "at": {"line": 1, "column": 8, "offset": 9}},
    ),
    ("convert", {"a/b": [0, 0.5]}, {"fault": "Float", "pointer": "/a~1b/1"}),
    (
        "convert",
        {"dependencies": [OVERFLOWING]},
        {"fault": "ColumnOverflow", "pointer": "/dependencies/0/leadingComments/0/range/0/1"},
    ),
    ("reach", {}, {"fault": "Shape", "pointer": ""}),
    ("reach", {"root": "a", "modules": {"~": {"script": 1}}}, {"fault": "Shape", "pointer": "/modules/~0/script"}),
    ("reach", {"root": "a", "modules": {"a": {"script": 1.5}}}, {"fault": "Float", "pointer": "/modules/a/script"}),
]


@pytest.mark.parametrize("command, document, wanted", FAULTS, ids=lambda part: ascii(part)[:60])
def test_a_document_with_a_fault(command: modinfo.Command, document: modinfo.Document, wanted: dict[str, Any]) -> None:
    report = modinfo.check(document, command)
    assert "fault" in report and report["expected"] != ""
    assert {name: value for name, value in report.items() if name != "expected"} == wanted
    with pytest.raises(modinfo.Fault) as refused:
        modinfo._answer(command, document)
    assert refused.value.name == report["fault"]
    assert refused.value.report == report


def test_that_each_fault_has_a_document() -> None:
    # But the one for texts that show a defect of modinfo.
    assert {wanted["fault"] for _, _, wanted in FAULTS} | {"Defect"} == set(get_args(modinfo.DocumentFault))


def test_what_was_expected() -> None:
    assert modinfo.check(changed(source="")) == {
        "fault": "RangeOutside",
        "pointer": "/program/range",
        "range": [0, 16],
        "expected": "an end of at most 0, the source's length",
    }


def test_warnings() -> None:
    assert modinfo.check(SIDE_EFFECT_IMPORT) == {"valid": True}
    warning = {"pointer": "/program/body/0/child", "says": UNREAD}
    assert modinfo.check(with_item(child=[])) == {"valid": True, "warnings": [warning]}
    report = modinfo.check(with_item(**{f"child{number}": [] for number in range(103)}))
    assert "valid" in report and report["more"] == 3
    pointers = [f"/program/body/0/child{number}" for number in range(100)]
    assert report["warnings"] == [{"pointer": pointer, "says": UNREAD} for pointer in pointers]


@pytest.mark.parametrize("document", [SIDE_EFFECT_IMPORT, with_item(child=[]), with_item(range=[0, 99]), {}], ids=repr)
def test_that_a_document_may_be_a_dict_a_str_or_bytes(document: dict[str, Any]) -> None:
    report = modinfo.check(document)
    for text in json.dumps(document), json.dumps(document, indent=1):
        assert modinfo.check(text) == modinfo.check(text.encode()) == report


@pytest.mark.parametrize(
    "document, column, offset",
    [
        ('{"größe":"\ud800"}', 10, 12),
        ({"größe": "\udfff"}, 10, 12),
        ({"größe": "\ud83d\ude00"}, 10, 12),
        ("\udfff{", 0, 0),
    ],
    ids=ascii,
)
def test_a_lone_surrogate(document: modinfo.Document, column: int, offset: int) -> None:
    report = modinfo.check(document)
    assert "fault" in report and report["fault"] == "Input"
    assert report["at"] == {"line": 0, "column": column, "offset": offset}


@pytest.mark.parametrize("command, document, expected", examples(), ids=lambda part: getattr(part, "name", part))
def test_that_an_example_is_valid(command: modinfo.Command, document: Any, expected: Any) -> None:
    assert modinfo.check(document.read_bytes(), command) == {"valid": True}


@pytest.mark.parametrize("name, command, document, report", check_cases(CASES), ids=lambda part: str(part)[:60])
def test_a_case(name: str, command: modinfo.Command, document: bytes, report: bytes) -> None:
    assert modinfo.check(document, command) == json.loads(report)


@pytest.mark.parametrize("command", ["", "check", "Analyze", "analyze ", None, 1], ids=repr)
def test_another_command(command: Any) -> None:
    names = "analyze, analyze_estree, analyze_source, convert, reach"
    with pytest.raises(ValueError, match=f"^command must be one of {names}, not "):
        modinfo.check({}, command)


def test_out_of_memory(monkeypatch: pytest.MonkeyPatch) -> None:
    """A stand-in for the library's function, whose allocations fail."""

    def refuse(document: bytes, document_length: int, answer: int, room: int, length: int) -> int:
        ctypes.memmove(answer, b"OutOfMemory", 11)
        ctypes.c_size_t.from_address(length).value = 11
        return _library.FAULT

    call = _library.Call(refuse, refuse)
    monkeypatch.setitem(_library.COMMANDS, "analyze", _library.Command(call, call))
    for function in modinfo.check, modinfo.analyze:
        with pytest.raises(modinfo.Fault, match="^OutOfMemory: an allocation failed$") as refused:
            function({})
        assert refused.value.report is None
