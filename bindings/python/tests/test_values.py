"""The dataclasses of what a module depends on."""

import copy
import dataclasses
import json
import pickle
from collections.abc import Callable
from pathlib import Path
from types import MappingProxyType
from typing import Any

import pytest
from repository import CASES, EXAMPLES, program_cases

import modinfo

ANSWERS = [
    json.loads(text)
    for _, command, _, status, text in program_cases(CASES)
    if command.startswith("analyze") and status == 0
]
STATIC = {"type": "static", "kind": "import", "specifier": "a", "specifierRange": [[0, 7], [0, 10]]}


def with_dependency(**members: Any) -> dict[str, Any]:
    return {"dependencies": [{**STATIC, **members}]}


@pytest.mark.parametrize("path", sorted(EXAMPLES.glob("*.out.json")), ids=lambda path: path.name)
def test_an_example(path: Path) -> None:
    wanted = path.read_text()
    info = modinfo.ModuleInfo.from_dict(json.loads(wanted))
    assert json.dumps(info.to_dict(), ensure_ascii=False, separators=(",", ":")) + "\n" == wanted
    assert pickle.loads(pickle.dumps(info)) == info
    assert hash(pickle.loads(pickle.dumps(info))) == hash(info)


def test_each_case() -> None:
    assert len(ANSWERS) > 100
    assert [modinfo.ModuleInfo.from_dict(answer).to_dict() for answer in ANSWERS] == ANSWERS


def test_members_and_defaults() -> None:
    info = modinfo.ModuleInfo.from_dict(MappingProxyType(with_dependency()))
    assert (info.script, info.ts_references, info.source_map_url) == (False, (), None)
    [dependency] = info.dependencies
    assert isinstance(dependency, modinfo.StaticDependency) and dependency.type == "static"
    assert (dependency.specifier_range.start.line, dependency.specifier_range.end.character) == (0, 10)
    assert (dependency.side_effect, dependency.types_specifier, dependency.import_attributes) == (False, None, None)
    dynamic = modinfo.DynamicDependency(modinfo.Range(modinfo.Position(0, 7), modinfo.Position(0, 8)))
    assert dynamic.to_dict() == {"argumentRange": [[0, 7], [0, 8]], "type": "dynamic"}
    assert (dynamic.kind, dynamic.argument) == ("import", None)


def test_that_a_value_cannot_be_changed() -> None:
    info = modinfo.ModuleInfo()
    with pytest.raises(dataclasses.FrozenInstanceError):
        info.script = True  # type: ignore[misc]


CHANGES: dict[str, Callable[[Any], Any]] = {
    "an item": lambda known: known.__setitem__("type", "css"),
    "no item": lambda known: known.__delitem__("type"),
    "an update": lambda known: known.update(type="css"),
    "a union": lambda known: known.__ior__({"type": "css"}),
    "a default": lambda known: known.setdefault("lang", "css"),
    "a pop": lambda known: known.pop("type"),
    "another pop": lambda known: known.popitem(),
    "none left": lambda known: known.clear(),
}


@pytest.mark.parametrize("change", CHANGES.values(), ids=CHANGES)
def test_that_known_attributes_cannot_be_changed(change: Callable[[Any], Any]) -> None:
    """Neither by themselves nor by the dict that they were made of."""
    made_of: dict[str, str | None] = {"type": "json"}
    attributes = modinfo.KnownAttributes(made_of)
    with pytest.raises(TypeError, match="^this dict can't be changed"):
        change(attributes.known)
    change(made_of)
    assert attributes == modinfo.KnownAttributes({"type": "json"})
    for again in pickle.loads(pickle.dumps(attributes)), copy.deepcopy(attributes):
        assert again == attributes and hash(again) == hash(attributes)
        with pytest.raises(TypeError):
            change(again.known)
    assert hash(attributes) != hash(modinfo.KnownAttributes({"type": None}))


def test_that_asdict_has_everything() -> None:
    """Also the tags, by which readers of its JSON know the alternatives apart."""
    text = 'import "a" with { type: "json" };\nimport(`./${b}`);\n/// <reference path="c" />'
    static = {
        "type": "static",
        "kind": "import",
        "specifier": "a",
        "specifier_range": {"start": {"line": 0, "character": 7}, "end": {"line": 0, "character": 10}},
        "types_specifier": None,
        "side_effect": True,
        "import_attributes": {"known": {"type": "json"}},
    }
    found = json.loads(json.dumps(dataclasses.asdict(modinfo.module_info(text, "file:///a.ts"))))
    assert found["dependencies"][0] == static
    assert found["dependencies"][1]["type"] == "dynamic"
    assert found["dependencies"][1]["argument"] == [{"type": "string", "value": "./"}, {"type": "expr"}]
    found = dataclasses.asdict(modinfo.module_info('/// <reference path="c" />', "file:///a.ts"))
    assert found["ts_references"][0]["type"] == "path"


def test_that_a_tag_is_no_argument() -> None:
    with pytest.raises(TypeError, match="'type'"):
        modinfo.StringPart("a", type="expr")  # type: ignore[call-arg]
    assert dataclasses.replace(modinfo.StringPart("a"), value="b").type == "string"


@pytest.mark.parametrize(
    "argument, is_unknown",
    [
        ("x", True),
        ("`${x}`", True),
        ("`${x}${y}`", True),
        ("f('a')", True),
        ("...x", True),
        ("'a'", False),
        ("``", False),
        ("`./${x}`", False),
        ("'./' + x", False),
    ],
)
def test_an_argument_of_which_nothing_is_known(argument: str, is_unknown: bool) -> None:
    for call in "import", "require":
        [dependency] = modinfo.module_info(f"{call}({argument});", "file:///a.cjs").dependencies
        assert isinstance(dependency, modinfo.DynamicDependency)
        assert dependency.has_unknown_argument == is_unknown


@pytest.mark.parametrize(
    "wrong, message",
    [
        ([], "in the whole value: expected an object, not an array of 0"),
        ({"script": 1}, "at /script: expected true or false, not 1"),
        ({"dependencies": "a"}, "at /dependencies: expected an array, not 'a'"),
        ({"dependencies": [{}]}, "at /dependencies/0/type: expected 'static' or 'dynamic', not None"),
        ({"dependencies": [STATIC, 2]}, "at /dependencies/1: expected an object, not 2"),
        (with_dependency(kind="other"), "at /dependencies/0/kind: expected 'import' or 'importDefer' or "),
        (with_dependency(specifierRange=[[0, 7]]), "at /dependencies/0/specifierRange: expected an array of 2, not "),
        (
            with_dependency(specifierRange=[[0, 7], [0, "1"]]),
            "at /dependencies/0/specifierRange/1/1: expected a whole number, not '1'",
        ),
        (with_dependency(specifier=None), "at /dependencies/0: expected a member 'specifier'"),
        (
            with_dependency(typesSpecifier={"text": "a" * 9999, "range": 1}),
            "at /dependencies/0/typesSpecifier/range: expected an array of 2, not 1",
        ),
        (with_dependency(importAttributes=1), "at /dependencies/0/importAttributes: expected 'unknown' or an object, "),
        (
            with_dependency(importAttributes={"known": []}),
            "at /dependencies/0/importAttributes/known: expected an object, not an array of 0",
        ),
        (
            with_dependency(importAttributes={"known": {"type": None, "a/b": 1}}),
            "at /dependencies/0/importAttributes/known/a~1b: expected a string or null, not 1",
        ),
        (
            {"tsReferences": [{"type": "lib", "text": "a", "range": [[0, 0], [0, 1]]}]},
            "at /tsReferences/0/type: expected 'path' or 'types', not 'lib'",
        ),
        (
            {
                "dependencies": [
                    {"type": "dynamic", "argumentRange": [[0, 1], [0, 2]], "argument": [{"type": "string"}]}
                ]
            },
            "at /dependencies/0/argument/0: expected a member 'value'",
        ),
    ],
    ids=str,
)
def test_that_an_error_names_the_bad_member(wrong: Any, message: str) -> None:
    with pytest.raises(ValueError) as refused:
        modinfo.ModuleInfo.from_dict(wrong)
    assert str(refused.value).startswith(message) and len(str(refused.value)) < 250


def test_a_member_that_is_not_known() -> None:
    """A reader ignores it, since later versions may have more."""
    assert modinfo.ModuleInfo.from_dict({"script": True, "later": 1}) == modinfo.ModuleInfo(script=True)
