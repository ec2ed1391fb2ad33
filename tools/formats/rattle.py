"""Names in Rattle, in files that are written by hand: of the members of objects and nodes, and of the literal of each
kind."""

import json
from collections.abc import Iterator

from formats.blocks import Block
from formats.schema import Format, Schema

CRATE = "crates/modinfo_document/src"


def blocks(document: Format, _: Format, __: Format) -> Iterator[Block]:
    kinds = {node["title"]: node["properties"] for node in document.nodes}
    roles = {each["x-rattle"]: [*each["properties"]] for each in document.titled() if is_object(each)}
    for role in roles:
        yield f"{CRATE}/names.rt", f"ObjectKind::{role} =>", [f"&{json.dumps(roles[role])},"]
    members = {kind: f"&{json.dumps([*kinds[kind]])}" for kind in kinds}
    yield f"{CRATE}/names.rt", "match kind {", arms(members)
    literal = dict.fromkeys(kinds, "None")
    for kind, parts in kinds.items():
        literal |= {kind: f'Some("{name}")' for name in parts if '$defs/literal"' in json.dumps(parts[name])}
    yield f"{CRATE}/report/warnings.rt", "match kind {", arms(literal)


def is_object(schema: Schema) -> bool:
    return "x-rattle" in schema and "properties" in schema


def arms(values: dict[str, str]) -> list[str]:
    """The arms of a match on kinds. Kinds with one value are one arm. Any other kind is as the last one."""
    *_, other = values.values()
    kinds = {value: [f'"{kind}"' for kind in values if values[kind] == value] for value in values.values()}
    lines = [f"        {' | '.join(kinds[value])} => {value}," for value in kinds if value != other]
    return [*lines, f"        _ => {other},"]
