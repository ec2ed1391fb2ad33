"""The tables of docs/conventions.json in TypeScript: what frameworks, tools and package.json have by convention."""

import json
from collections.abc import Iterator
from textwrap import wrap
from typing import Any

from sources import ROOT

from formats.language import GENERATED

PATH = "docs/conventions.json"
GRAPH = "bindings/node/modinfo-graph/src/graph/conventions.ts"
WIDTH = 110


def files() -> dict[str, str]:
    tables: dict[str, Any] = json.loads((ROOT / PATH).read_text())
    lines = [f"/** {GENERATED} from {PATH}. */"]
    for name, found in tables.items():
        if name != "description":
            lines += ["", f"/** {found['text']} */", *table(name, found["values"])]
    return {GRAPH: "".join(f"{line}\n" for line in lines)}


def table(name: str, values: list[str] | dict[str, list[str]]) -> Iterator[str]:
    """The declaration of a list, or of a map of lists."""
    if isinstance(values, list):
        yield f"export const {name} = ["
        yield from texts(values, "  ")
        yield "];"
    else:
        yield f"export const {name} = new Map<string, string[]>(["
        for key, each in values.items():
            yield from (f'  ["{key}", [', *texts(each, "    "), "  ]],")
        yield "]);"


def texts(values: list[str], indent: str) -> list[str]:
    """The lines of a list of strings."""
    text = ", ".join(json.dumps(each) for each in values) + ","
    return wrap(text, WIDTH, initial_indent=indent, subsequent_indent=indent, break_on_hyphens=False)
