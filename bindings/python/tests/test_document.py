"""Holds the types of modinfo.document against docs/document.schema.json."""

from typing import Any, get_args, get_type_hints

import pytest
from schemas import Schema, typed

import modinfo
from modinfo import document

SCHEMA = Schema("document")
KINDS = {get_args(node.__annotations__["kind"])[0]: node for node in get_args(document.Node)}


@pytest.mark.parametrize(
    "name, annotation",
    [
        ("range", document.ByteRange),
        ("jsString", document.JsString),
        ("literal", document.StringLiteral),
        ("argument", document.Argument),
        ("comment", document.Comment),
        ("filed", list[document.FiledComments]),
    ],
)
def test_a_type(name: str, annotation: Any) -> None:
    assert typed(annotation) == SCHEMA.definition(name)


def test_that_each_kind_has_its_type() -> None:
    assert sorted(KINDS) == sorted(SCHEMA.whole["$defs"]["node"]["properties"]["kind"]["enum"])


@pytest.mark.parametrize("kind", KINDS)
def test_the_members_of_a_kind(kind: str) -> None:
    schema = SCHEMA.whole["$defs"][kind]
    node = SCHEMA.whole["$defs"]["node"]
    members = {*node["properties"], *schema.get("properties", {})}
    assert set(KINDS[kind].__annotations__) == members
    required = {*node["required"], *schema.get("required", [])}
    assert KINDS[kind].__required_keys__ == required


@pytest.mark.parametrize("kind", KINDS)
def test_the_types_of_a_kind_s_own_members(kind: str) -> None:
    own = {name: part for name, part in SCHEMA.whole["$defs"][kind].get("properties", {}).items() if name != "children"}
    assert {name: typed(hint) for name, hint in get_type_hints(KINDS[kind]).items() if name in own} == {
        name: SCHEMA.described(part) for name, part in own.items()
    }


def test_the_whole() -> None:
    assert set(modinfo.ModuleDocument.__annotations__) == set(SCHEMA.whole["properties"])
    assert modinfo.ModuleDocument.__required_keys__ == set(SCHEMA.whole["required"])
    assert typed(document.MediaType) == SCHEMA.described(SCHEMA.whole["properties"]["mediaType"])
    program = SCHEMA.whole["properties"]["program"]
    assert set(document.Program.__annotations__) == set(program["properties"])
    assert document.Program.__required_keys__ == set(program["required"])
