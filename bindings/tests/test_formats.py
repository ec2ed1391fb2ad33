"""Checks documents, what is found in them and reports against the schemas, and against the types of each language.

The documents are those of examples/ and 1,000 that are generated. The program that MODINFO names, else build/modinfo,
analyzes and checks them. Debian's python3-jsonschema reads the schemas. TypeScript in its strict mode and mypy --strict
check the types; those of Rust have a test in bindings/rust/tests. Each of the three also has to refuse wrong values.
"""

import json
import os
import re
import subprocess
from collections.abc import Iterator
from copy import deepcopy
from pathlib import Path
from typing import Any

import pytest
from generated_documents import documents, lines
from jsonschema import Draft202012Validator

ROOT = Path(__file__).resolve().parents[2]
MODINFO = os.environ.get("MODINFO", f"{ROOT}/build/modinfo")
EXAMPLES = ROOT / "examples"
COUNT = 1000
# The modules with the types of each format in TypeScript and in Python, and the type of a value.
TYPES = {
    "document": ("module_document", "document", "ModuleDocument"),
    "module-info": ("module_info", "information", "ModuleInfo"),
    "report": ("check_report", "report", "Report"),
}
Values = dict[str, list[dict[str, Any]]]


def run(*command: str, text: str = "", **environment: str) -> str:
    """What a command prints; status 1 means that it refuses something."""
    environment = {**os.environ, **environment}
    done = subprocess.run(command, input=text, capture_output=True, text=True, env=environment)
    assert done.returncode in (0, 1) and not done.stderr, done.stdout + done.stderr
    return done.stdout


def printed(*words: str, documents: list[dict[str, Any]]) -> list[dict[str, Any]]:
    """The line that the program prints for each document."""
    return [json.loads(line) for line in run(MODINFO, *words, "--lines", text=lines(documents)).splitlines()]


def broken(document: dict[str, Any], number: int) -> dict[str, Any]:
    """The document with a fault."""
    document = deepcopy(document)
    faults = [
        lambda: document.pop("source"),
        lambda: document.update(specifier="no URL"),
        lambda: document["program"].update(range=[1, 0]),
        lambda: document["program"].update(range=[0, 1 << 20]),
        lambda: document.update(leading=[{"pos": 0, "comments": [{"kind": "line", "range": [0, 1], "text": ""}]}]),
    ]
    faults[number % len(faults)]()
    return document


@pytest.fixture(scope="module")
def values() -> Values:
    """The values of each format."""
    answers = sorted(EXAMPLES.glob("*.out.json"))
    examples = [json.loads(path.with_name(path.name.replace(".out.json", ".json")).read_text()) for path in answers]
    generated = documents(COUNT)
    found = printed("analyze", documents=generated)
    infos = [json.loads(path.read_text()) for path in answers] + [line["answer"] for line in found]
    wrong = [broken(each, number) for number, each in enumerate(generated[:100])]
    reports = printed("check", documents=generated + wrong)
    assert [report.get("valid", False) for report in reports] == [True] * COUNT + [False] * 100
    return {"document": examples + generated, "module-info": infos, "report": reports}


@pytest.fixture(scope="module")
def wrong() -> Values:
    """Values of each format with one error, which every check has to refuse."""
    places = [[0, 0], [0, 1]]
    program = {"range": [0, 0], "body": []}
    document = {"specifier": "file:///a.js", "mediaType": "JavaScript", "source": "", "program": program}
    without_source = {name: part for name, part in document.items() if name != "source"}
    without_value = {**program, "body": [{"kind": "Ident", "range": [0, 0]}]}
    static = {"type": "static", "kind": "none", "specifier": "a", "specifierRange": places}
    return {
        "document": [{**document, "mediaType": "Ruby"}, without_source, {**document, "program": without_value}],
        "module-info": [{"script": "true"}, {"sourceMapUrl": {"text": "a"}}, {"dependencies": [static]}],
        "report": [{"valid": False}, {"fault": "None", "expected": "a URL"}],
    }


def annotated(schema: Any) -> Iterator[tuple[Any, Any]]:
    """The schemas in a schema that have examples or a default, each with one of them."""
    if isinstance(schema, dict):
        for value in schema.get("examples", []) + ([schema["default"]] if "default" in schema else []):
            yield schema, value
    for part in schema.values() if isinstance(schema, dict) else schema if isinstance(schema, list) else []:
        yield from annotated(part)


@pytest.mark.parametrize("name", TYPES)
def test_schema(name: str, values: Values, wrong: Values) -> None:
    schema = json.loads((ROOT / f"docs/{name}.schema.json").read_text())
    Draft202012Validator.check_schema(schema)
    validator = Draft202012Validator(schema)
    assert [value for value in values[name] if not validator.is_valid(value)] == []
    assert [value for value in wrong[name] if validator.is_valid(value)] == []
    for part, value in annotated(schema):
        Draft202012Validator({**part, "$defs": schema["$defs"]}).validate(value)


def expect_errors(printed: str, wrong: Values) -> None:
    """Each wrong value is refused, in a line of a file of its own, and no other value is."""
    errors = [line for line in printed.splitlines() if re.search(r"\berror\b", line)]
    assert [line for line in errors if not re.match(r"\S*\bwrong_", line)] == []
    for name, values in wrong.items():
        file = re.compile(rf"\S*\bwrong_{TYPES[name][1]}\.\w+[(:](\d+)")
        assert len({found[1] for found in map(file.match, errors) if found}) == len(values), printed


def in_typescript(name: str, values: list[dict[str, Any]]) -> str:
    module, _, kind = TYPES[name]
    lines = [f"export const value{number}: {kind} = {json.dumps(value)};" for number, value in enumerate(values)]
    return "\n".join(
        [f'import type {{ {kind} }} from "{ROOT}/bindings/node/modinfo/dist/types/{module}.cjs";', *lines, ""]
    )


def test_typescript(values: Values, wrong: Values, tmp_path: Path) -> None:
    files = {f"{TYPES[name][1]}.mts": in_typescript(name, each) for name, each in values.items()}
    files |= {f"wrong_{TYPES[name][1]}.mts": in_typescript(name, each) for name, each in wrong.items()}
    program = f"""
        import {{ compile }} from "{ROOT}/bindings/node/tests/compile.mjs";
        import {{ readFileSync }} from "node:fs";
        const files = JSON.parse(readFileSync(0, "utf8"));
        process.stdout.write(compile("{tmp_path}", files, {{ lib: ["es2022"] }}));"""
    expect_errors(run("node", "--input-type=module", "--eval", program, text=json.dumps(files)), wrong)


# Makes a list of nodes in Python. mypy takes long to find the type of a literal with nodes.
LISTED = "def listed(*nodes: document.Node) -> list[document.Node]:\n    return list(nodes)"


def literal(value: Any, statements: list[str]) -> str:
    """A value in Python. Each node in it is a variable with the type of its kind, for the same reason."""
    if isinstance(value, list):
        return f"[{', '.join([literal(part, statements) for part in value])}]"
    if not isinstance(value, dict):
        return repr(value)
    members = []
    for name, part in value.items():
        if name in ("body", "children"):
            nodes = [declared(f"document.{node['kind']}", node, statements) for node in part]
            members.append(f"{name!r}: listed({', '.join(nodes)})")
        else:
            members.append(f"{name!r}: {literal(part, statements)}")
    return f"{{{', '.join(members)}}}"


def declared(kind: str, value: Any, statements: list[str]) -> str:
    """The name of a variable with a value."""
    text = literal(value, statements)
    statements.append(f"value{len(statements)}: {kind} = {text}")
    return statements[-1].partition(":")[0]


def in_python(name: str, values: list[dict[str, Any]]) -> str:
    _, module, kind = TYPES[name]
    statements = [f"from modinfo import {module}", *([LISTED] if name == "document" else [])]
    for value in values:
        declared(f"{module}.{kind}", value, statements)
    return "\n".join(statements) + "\n"


def test_python(values: Values, wrong: Values, tmp_path: Path) -> None:
    paths = []
    for before, some in ("", values), ("wrong_", wrong):
        for name, each in some.items():
            paths.append(tmp_path / f"{before}{TYPES[name][1]}.py")
            paths[-1].write_text(in_python(name, each))
    words = ["--strict", "--no-error-summary", "--cache-dir", f"{tmp_path}/cache", *map(str, paths)]
    expect_errors(run("/usr/bin/python3", "-m", "mypy", *words, MYPYPATH=f"{ROOT}/bindings/python/src"), wrong)
