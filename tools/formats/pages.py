"""Tables and lists in docs/FORMATS.md, and the faults in the header for C and on the manual page."""

import json
import re
from collections.abc import Iterator

from formats.blocks import Block
from formats.language import filled
from formats.schema import Format, Schema
from formats.typescript import TypeScript

PAGE = "docs/FORMATS.md"


def table(head: str, rows: list[list[str]]) -> list[str]:
    lines = [f"| {line} |".replace("|  |", "| |") for line in [head, *map(" | ".join, rows)]]
    return [lines[0], "|---" * len(head.split(" | ")) + "|", *lines[1:]]


def cell(of: Format, schema: Schema) -> str:
    """The members of an object that are its own, or the alternatives of another type, in TypeScript."""
    types, shared = TypeScript(of), of.shared if schema in of.nodes else {}
    values = [] if "properties" in schema else types.alternatives(schema)
    for (name, part), (_, line) in zip(schema.get("properties", {}).items(), types.members(schema)):
        if part and name not in shared:
            default = of.whole(part).get("default")
            values.append(line[:-1] + (f" = {json.dumps(default)}" if default else ""))
    return ", ".join(f"`{value}`" for value in values)


def types_of(of: Format) -> list[str]:
    """A line for each type that has no table."""
    types, nodes = TypeScript(of), [*of.nodes, of.node]
    plain = [each for each in reversed(of.titled()) if types.name(each) and "x-values" not in each]
    return [f"- `{each['title']}`: {cell(of, each)}" for each in plain if each not in nodes]


def tables_of_nodes(document: Format) -> Iterator[Block]:
    nodes = [{**node, "members": cell(document, node).replace(" | ", " \\| ")} for node in document.nodes]
    for name, head, *keys in (
        ("nodes", "Stands for | Members", "description", "members"),
        ("children", "Children", "x-children"),
        ("dependencies", "Is a dependency | Its `kind` | Its inside", "x-dependency", "x-kind", "x-inside"),
    ):
        rows = [[f"`{node['title']}`", *(node[key] for key in keys)] for node in nodes if keys[0] in node]
        yield PAGE, name, table(f"Kind | {head}", rows)


def manual_page(faults: dict[str, str]) -> Iterator[str]:
    """Each sentence is on a line of its own, as troff has it."""
    for name, text in faults.items():
        yield from (".TP", f".B {name}")
        in_troff = re.sub("`(.*?)`", r"\\fB\1\\fP", text).replace(" - ", r" \- ")
        for sentence in re.split(r"(?<=\.) ", in_troff):
            yield from filled(sentence, "", 79)


def blocks(document: Format, info: Format, report: Format) -> Iterator[Block]:
    for of, name in (document, "document"), (info, "info"), (report, "report"):
        yield PAGE, name, types_of(of)
    yield from tables_of_nodes(document)
    faults = report.definitions["documentFault"]["x-values"]
    yield PAGE, "faults", table("Fault | When", [[f"`{name}`", faults[name]] for name in faults])
    entries = [filled(f"{name:17} {faults[name]}", " *     ", 110, " *" + 23 * " ") for name in faults]
    yield "include/modinfo.h", "faults", [line for entry in entries for line in entry]
    yield "packaging/module-info.1", "faults", [*manual_page(faults)]
