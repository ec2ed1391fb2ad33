"""The lists of names in Rattle of which a string in a document has to be one: in code, and in the definitions."""

import json
from collections.abc import Iterator

from formats.blocks import Block
from formats.codec_code import list_of
from formats.codec_kinds import Kinds, listed
from formats.codecs import Codecs, camel, snake
from formats.rattle_imports import folded
from formats.schema import Format

CRATE = "crates/deno_graph_json"


def names_of_lists(document: Format, info: Format) -> dict[str, list[str]]:
    """The names of each list, by the variant of the list."""
    found: dict[str, list[str]] = {}
    for codec in Codecs(info, "deno_graph_info", "analysis", "ModuleInfo").all:
        names = [*codec.names] or [each.tag for each in codec.variants]
        if names:
            found[list_of(codec)] = names
    kinds = Kinds(document)
    found |= {camel(each.table): [*each.values] for each in kinds.names}
    return found | {"Kinds": [kind.name for kind in kinds.kinds]}


def blocks(document: Format, info: Format, _: Format) -> Iterator[Block]:
    found = names_of_lists(document, info)
    for name, names in found.items():
        yield f"{CRATE}/src/names.rt", f"const {snake(name).upper()}: &[&str] =", [f"&{json.dumps(names)}"]
    lines = [folded(f"names_in list.{name} = {listed(names)}") for name, names in found.items()]
    yield f"{CRATE}/specs/Read/Names.antt", "names", lines
