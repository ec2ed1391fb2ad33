"""Module documents that are generated from their schema, and valid. The same number makes the same document.

    python3 bindings/tests/generated_documents.py COUNT

prints one a line.
"""

import json
import sys
from pathlib import Path
from random import Random
from typing import Any

sys.path.append(str(Path(__file__).resolve().parents[2] / "tools"))

from formats.schema import Format, Schema, choices, literals

TEXTS = ["./a.ts", "é/😀.js", "", '"\\\n', "*", "node:fs", "resolution-mode", "import", "type", "require"]
LINE_COMMENTS = [
    "/ <reference path='a.d.ts' />",
    "/ <reference types=\"b\" resolution-mode='import' />",
    " @ts-self-types='./self.d.ts'",
    ' @ts-types="./t.d.ts"',
    " @deno-types=./d.d.ts",
    "# sourceMappingURL=a.js.map",
    " é 😀",
]
BLOCK_COMMENTS = [
    "* @jsxImportSource react ",
    "* @jsxImportSourceTypes @types/react ",
    "* {import('./x.ts')} ",
    "* @import {A} from './y.ts' with {'resolution-mode': 'require'} ",
]
# What follows the comments. Every node is somewhere in it.
CODE = "code " * 20
DEEPEST = 3


class Generator:
    """Makes one document."""

    def __init__(self, number: int, of: Format) -> None:
        self.random = Random(number)
        self.format = of
        self.source = ""
        self.comments: list[dict[str, Any]] = []

    def document(self) -> dict[str, Any]:
        for _ in range(self.random.randrange(5)):
            self.add_comment()
        self.start = self.length()
        self.source += CODE
        body = [self.node(0) for _ in range(self.random.randrange(4))]
        document = self.value({**self.format.root, "properties": {**self.format.root["properties"], "program": {}}})
        program = {"range": [self.start, self.length()], "body": body}
        if self.is_true():
            program["shebang"] = self.is_true()
        places = [node["range"][0] for node in body] + [self.start, self.length()]
        for side in "leading", "trailing":
            if side in document:
                document[side] = [
                    {"pos": self.random.choice(places), "comments": self.sorted_sample(self.comments)}
                    for _ in range(self.random.randrange(3))
                ]
        return {**document, "specifier": "file:///a.ts", "source": self.source, "program": program}

    def add_comment(self) -> None:
        kind = self.random.choice(["line", "block"])
        text = self.random.choice(LINE_COMMENTS if kind == "line" else BLOCK_COMMENTS)
        start = self.length()
        self.source += f"//{text}" if kind == "line" else f"/*{text}*/"
        self.comments.append({"kind": kind, "range": [start, self.length()], "text": text})
        self.source += "\n"

    def length(self) -> int:
        return len(self.source.encode())

    def is_true(self) -> bool:
        return self.random.random() < 0.5

    def sorted_sample(self, values: list[dict[str, Any]]) -> list[dict[str, Any]]:
        return [value for value in values if self.is_true()]

    def value(self, schema: Schema) -> Any:
        """A value that the schema allows. Nodes are made by `node`."""
        if schema.get("$ref") == "#/$defs/range":
            return sorted(self.random.randrange(self.start, self.length()) for _ in range(2))
        schema = self.format.resolved(schema)
        if schema.get("title") == "DocumentNode" or not schema:
            return None
        if literals(schema):
            return self.random.choice(literals(schema))
        if choices(schema):
            return self.value(self.random.choice(choices(schema)))
        if schema["type"] == "array":
            count = schema.get("minItems", 0) + self.random.randrange(3)
            return [self.value(schema["items"]) for _ in range(count)]
        if schema["type"] == "object":
            required = schema["required"]
            members = {name: part for name, part in schema["properties"].items() if part is not False}
            return {name: self.value(part) for name, part in members.items() if name in required or self.is_true()}
        return {
            "string": lambda: self.random.choice(TEXTS),
            "boolean": self.is_true,
            "integer": lambda: self.random.randrange(0x10000),
            "null": lambda: None,
        }[schema["type"]]()

    def node(self, depth: int) -> dict[str, Any]:
        node = self.value(self.random.choice(self.format.nodes))
        count = self.random.randrange(3) if depth < DEEPEST else 0
        children = [self.node(depth + 1) for _ in range(self.count_of(node, count))]
        if node["kind"] == "Call" and node["callee"] == "expr" and self.is_true():
            children[0] = {"kind": "Ident", "range": node["range"], "value": "require"}
        if node.get("hasWith"):
            children[:1] = [self.clause(node["range"])]
        node.pop("children", None)
        return {**node, "children": children} if children or self.is_true() or node["kind"] == "Binary" else node

    def count_of(self, node: dict[str, Any], count: int) -> int:
        """As many children as a node needs, or may have."""
        match node["kind"]:
            case "Template":
                return len(node["quasis"]) - 1
            case "Binary":
                return 2
            case "KeyValue":
                return max(1, count)
            case "Call":
                return len(node["args"]) + (node["callee"] == "expr")
        return count

    def clause(self, place: list[int]) -> dict[str, Any]:
        value = {"kind": "Str", "range": place, "value": self.random.choice(TEXTS)}
        key = {"str": self.random.choice(TEXTS)} if self.is_true() else {"ident": "with"}
        return {
            "kind": "Object",
            "range": place,
            "children": [{"kind": "KeyValue", "range": place, "key": key, "children": [value]}],
        }


def documents(count: int) -> list[dict[str, Any]]:
    of = Format("document")
    return [Generator(number, of).document() for number in range(count)]


def lines(values: list[dict[str, Any]]) -> str:
    return "".join(json.dumps(value, ensure_ascii=False, separators=(",", ":")) + "\n" for value in values)


if __name__ == "__main__":
    sys.stdout.write(lines(documents(int(sys.argv[1]))))
