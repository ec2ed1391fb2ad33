import json
from collections import ChainMap
from types import MappingProxyType
from typing import Any

import pytest

import modinfo

SIDE_EFFECT_IMPORT: dict[str, Any] = {
    "specifier": "file:///b.ts",
    "mediaType": "TypeScript",
    "source": 'import "./b.ts";',
    "program": {
        "range": [0, 16],
        "body": [{"kind": "ImportDecl", "range": [0, 16], "src": {"range": [7, 15], "value": "./b.ts"}}],
    },
}
FUNCTIONS = [modinfo.analyze, modinfo.convert, modinfo.reach]


@pytest.mark.parametrize("function", FUNCTIONS)
@pytest.mark.parametrize("document", [None, 1, True, [], (), {1}, object()], ids=repr)
def test_a_document_of_another_type(function: Any, document: Any) -> None:
    with pytest.raises(TypeError, match=f"not {type(document).__name__}$"):
        function(document)


@pytest.mark.parametrize("function", FUNCTIONS)
@pytest.mark.parametrize(
    "document, name",
    [
        (b"", "Json"),
        ("", "Json"),
        (b'{"source":"\xff"}', "Input"),
        ("{}".encode("utf-16"), "Input"),
        ('{"source":"\ud800"}', "Input"),
        ({"source": "\ud800"}, "Input"),
        ({"\udfff": ""}, "Input"),
        ({"source": "\ud83d\ude00"}, "Input"),
        ('{"source":"\\ud800"}', "Json"),
        ({"number": float("nan")}, "Json"),
        ({"number": float("inf")}, "Json"),
    ],
    ids=ascii,
)
def test_a_document_that_is_no_json_in_utf_8(function: Any, document: Any, name: str) -> None:
    with pytest.raises(modinfo.Fault) as refused:
        function(document)
    assert refused.value.name == name


def nested(depth: int) -> dict[str, Any]:
    document: dict[str, Any] = {}
    for _ in range(depth - 1):
        document = {"member": document}
    return document


def test_how_deep_a_document_nests() -> None:
    assert modinfo.convert(nested(127)) == nested(127)
    with pytest.raises(modinfo.Fault, match="^Json at "):
        modinfo.convert(nested(128))
    with pytest.raises(RecursionError):
        modinfo.convert(nested(100_000))


def test_a_dict_that_is_no_json() -> None:
    circle: dict[str, Any] = {}
    circle["member"] = circle
    with pytest.raises(ValueError, match="Circular"):
        modinfo.analyze(circle)
    with pytest.raises(TypeError, match="set"):
        modinfo.analyze({"member": set()})


def test_characters_outside_ascii() -> None:
    assert modinfo.convert({"größe": "日本 😀\0"}) == {"größe": "日本 😀\0"}
    assert modinfo.convert('{"größe":"日本 😀\\u0000"}') == {"größe": "日本 😀\0"}


def test_a_null_byte_inside_a_document() -> None:
    with pytest.raises(modinfo.Fault, match="^Json at line 1, column 3 \\(offset 2\\): expected "):
        modinfo.convert(b"{}\0")
    assert modinfo.convert(b"{}") == {}


def test_an_answer_longer_than_its_document() -> None:
    types = "./" + "t" * 2000 + ".d.ts"
    comment = f' @ts-types="{types}"'
    start = len(comment) + 3
    imports = [
        {"kind": "ImportDecl", "range": [start, start], "src": {"value": "a", "range": [start, start]}}
        for _ in range(200)
    ]
    document = {
        "specifier": "file:///a.ts",
        "mediaType": "TypeScript",
        "source": f"//{comment}\n",
        "program": {"range": [start, start], "body": imports},
        "leading": [{"pos": start, "comments": [{"kind": "line", "range": [0, start - 1], "text": comment}]}],
    }
    found = modinfo.analyze(document)["dependencies"]
    assert [dependency["typesSpecifier"]["text"] for dependency in found] == [types] * 200
    assert len(json.dumps(found)) > 10 * len(json.dumps(document))


def test_mappings_that_are_no_dicts() -> None:
    """Of any depth, as the types say."""
    document = {
        name: MappingProxyType(part) if name == "program" else part for name, part in SIDE_EFFECT_IMPORT.items()
    }
    for function in modinfo.analyze, modinfo.check, modinfo.convert:
        assert function(MappingProxyType(document)) == function(SIDE_EFFECT_IMPORT)
    assert modinfo.reach(MappingProxyType({"root": "a", "modules": ChainMap({"a": {}})})) == ["a"]


def test_that_a_call_leaves_its_document_as_it_was() -> None:
    document = json.loads(json.dumps(SIDE_EFFECT_IMPORT))
    modinfo.analyze(document)
    assert document == SIDE_EFFECT_IMPORT
