"""Trees of parsers, as ESTree describes them."""

import json
import os
import re
import subprocess
import sys
from pathlib import Path
from types import MappingProxyType
from typing import Any

import pytest
from repository import ROOT

import modinfo

NAME = "file:///a.mjs"
SOURCE = '// 😀\n/* @ts-types="./b.d.ts" */ import "./b.js";'
INFO = {
    "dependencies": [
        {
            "kind": "import",
            "sideEffect": True,
            "specifier": "./b.js",
            "specifierRange": [[1, 34], [1, 42]],
            "type": "static",
            "typesSpecifier": {"range": [[1, 13], [1, 23]], "text": "./b.d.ts"},
        }
    ]
}
# Offsets of the first comment's end, and of the second comment, the import and its specifier.
UTF16 = [5, 6, 32, 33, 49, 40, 48]
UTF8 = [offset + 2 for offset in UTF16]


def tree(offsets: list[int]) -> dict[str, Any]:
    _, _, _, start, end, first, last = offsets
    literal = {"type": "Literal", "start": first, "end": last, "value": "./b.js"}
    declaration = {"type": "ImportDeclaration", "start": start, "end": end, "specifiers": [], "source": literal}
    return {"type": "Program", "start": start, "end": end, "body": [declaration]}


def comments(offsets: list[int]) -> list[dict[str, Any]]:
    first, start, end, *_ = offsets
    return [{"type": "Line", "start": 0, "end": first}, {"type": "Block", "range": [start, end]}]


def document(**members: Any) -> dict[str, Any]:
    """The document of the source, as the program reads it."""
    parts = {"specifier": NAME, "mediaType": "Mjs", "source": SOURCE, "comments": comments(UTF16)}
    return {**parts, "program": tree(UTF16), **members}


def program_of(*body: dict[str, Any]) -> dict[str, Any]:
    """A program of these statements."""
    return {"type": "Program", "body": list(body)}


def call_of(argument: dict[str, Any], end: int) -> dict[str, Any]:
    """A program of one `import(..)` with this argument."""
    call = {"type": "ImportExpression", "range": [0, end], "source": argument}
    return program_of({"type": "ExpressionStatement", "range": [0, end], "expression": call})


def test_a_tree() -> None:
    assert modinfo.analyze_estree(NAME, "Mjs", SOURCE, tree(UTF16), comments(UTF16)) == INFO
    assert modinfo.check_estree(NAME, "Mjs", SOURCE, tree(UTF16), comments(UTF16)) == {"valid": True}


def test_offsets_in_bytes() -> None:
    assert modinfo.analyze_estree(NAME, "Mjs", SOURCE, tree(UTF8), comments(UTF8), offsets="utf8") == INFO


def test_the_comments_of_the_program() -> None:
    program = {**tree(UTF16), "comments": comments(UTF16)}
    assert modinfo.analyze_estree(NAME, "Mjs", SOURCE, program) == INFO
    [dependency] = modinfo.analyze_estree(NAME, "Mjs", SOURCE, program, comments=[])["dependencies"]
    assert "typesSpecifier" not in dependency


def test_that_a_tree_is_any_mapping() -> None:
    program = MappingProxyType({**tree(UTF16), "body": tuple(map(MappingProxyType, tree(UTF16)["body"]))})
    found = (MappingProxyType(comment) for comment in comments(UTF16))
    assert modinfo.analyze_estree(NAME, "Mjs", SOURCE, program, found) == INFO


@pytest.mark.parametrize(
    "value, text",
    [("\ud800", "\ufffd"), ("a\udc00é", "a\ufffdé"), ("\ud83d\ude00", "😀"), ("\ud83d\ude00\ud800", "😀\ufffd")],
    ids=ascii,
)
def test_a_lone_surrogate_in_the_tree(value: str, text: str) -> None:
    source = f"import({json.dumps(value)})"
    program = call_of({"type": "Literal", "range": [7, len(source) - 1], "value": value}, len(source))
    [dependency] = modinfo.analyze_estree(NAME, "Mjs", source, program)["dependencies"]
    assert dependency["argument"] == text


def test_a_lone_surrogate_in_the_source() -> None:
    with pytest.raises(modinfo.Fault, match="^Input at "):
        modinfo.analyze_estree(NAME, "Mjs", "//\ud800", program_of(), [])


def test_a_tree_of_another_text() -> None:
    report = {"fault": "RangeOutside", "range": [0, 1], "expected": "an end of at most 0, the source's length"}
    short = program_of({"type": "EmptyStatement", "start": 0, "end": 4})
    assert modinfo.check_estree(NAME, "Mjs", "", short) == report
    with pytest.raises(modinfo.Fault) as refused:
        modinfo.analyze_estree(NAME, "Mjs", "", short)
    assert refused.value.report == report
    assert str(refused.value) == f"RangeOutside (bytes 0 to 1): expected {report['expected']}"


def test_a_tree_of_another_form() -> None:
    report = modinfo.check_estree(NAME, "Mjs", "", program_of({"type": "EmptyStatement", "start": 0}))
    assert "fault" in report
    assert (report["fault"], report["pointer"]) == ("Tree", "/program/body/0")
    with pytest.raises(modinfo.Fault, match="^Tree at /offsets: "):
        modinfo.analyze_estree(NAME, "Mjs", "", program_of(), offsets="utf32")  # type: ignore[arg-type]


def nested(depth: int) -> dict[str, Any]:
    """A program of this many blocks in one another. The document is two levels deeper for each."""
    block: dict[str, Any] = {"type": "BlockStatement", "range": [0, 0], "body": []}
    for _ in range(depth - 1):
        block = {**block, "body": [block]}
    return program_of(block)


def test_how_deep_a_tree_nests() -> None:
    assert modinfo.analyze_estree(NAME, "Mjs", "", nested(62)) == {"script": True}
    with pytest.raises(modinfo.Fault, match="^Json at "):
        modinfo.analyze_estree(NAME, "Mjs", "", nested(63))


@pytest.mark.parametrize("value", [{1}, object(), b"", re.compile("a")], ids=repr)
def test_what_no_json_holds(value: object) -> None:
    with pytest.raises(TypeError, match=f"not {type(value).__name__}$"):
        modinfo.analyze_estree(NAME, "Mjs", "", {**program_of(), "value": value})


def test_a_tree_with_links_to_parents() -> None:
    program = program_of()
    program["parent"] = program
    with pytest.raises(ValueError, match="Circular reference"):
        modinfo.analyze_estree(NAME, "Mjs", "", program)


@pytest.mark.parametrize("jobs", [1, 2])
def test_lines(jobs: int) -> None:
    lines = [json.dumps(document()).encode(), b"{", json.dumps(document(source="")).encode()]
    answer = b'{"answer":%b}\n' % json.dumps(INFO, separators=(",", ":")).encode()
    faults = [b'{"fault":"Json"}\n', b'{"fault":"RangeOutside"}\n']
    assert list(modinfo.analyze_estree_lines(lines, jobs)) == [answer, *faults]
    reports = [json.loads(line) for line in modinfo.check_lines(lines, "analyze_estree", jobs)]
    assert reports == [modinfo.check(line, "analyze_estree") for line in lines]


def run(*words: str, given: dict[str, Any]) -> tuple[int, bytes]:
    command = [sys.executable, "-m", "modinfo", *words]
    done = subprocess.run(command, input=json.dumps(given).encode(), capture_output=True, check=False)
    return done.returncode, done.stdout


def test_the_commands() -> None:
    info = json.dumps(INFO, separators=(",", ":")).encode()
    assert run("analyze", "--estree", given=document()) == (0, info + b"\n")
    assert run("analyze", "--estree", "--lines", given=document()) == (0, b'{"answer":%b}\n' % info)
    for words in ["check", "--estree"], ["check", "analyze", "--estree"], ["check", "--estree", "--lines"]:
        assert run(*words, given=document()) == (0, b'{"valid":true}\n')
        assert run(*words, given=document(source=""))[0] == 1
    for words in ["convert", "--estree"], ["check", "convert", "--estree"]:
        assert run(*words, given=document()) == (2, b"")


def test_the_example_of_the_page(tmp_path: Path) -> None:
    page = (ROOT / "docs/ESTREE.md").read_text()
    found = re.search(r"```python\n(.*?)```\n\n```text\n(.*?)```\n", page, re.DOTALL)
    assert found is not None
    command = [sys.executable, "-I", "-c", found[1]]
    printed = subprocess.run(command, cwd=tmp_path, env=os.environ, capture_output=True, text=True, check=True)
    assert printed.stdout == found[2]
