"""The tables of docs/media-types.json in Rattle, in Rust, in node and in docs/FORMATS.md: media types of files by the
endings of their names, and of `data:` URLs by MIME types."""

import json
import re
from collections.abc import Iterator

from sources import ROOT

from formats.blocks import Block
from formats.language import GENERATED
from formats.pages import PAGE, table
from formats.schema import Format

CRATE = "crates/deno_graph_source/src/tree/media_type"
RUST = "bindings/rust/src/media_type.rs"
GRAPH = "bindings/node/modinfo-graph/src/files/media_types.ts"


def blocks(_: Format, __: Format, ___: Format) -> Iterator[Block]:
    endings, declarations, mime_types = (tables()[name] for name in ("endings", "declarations", "mimeTypes"))
    yield f"{CRATE}/file_name.rt", f"ENDINGS: [(&str, MediaType); {len(endings)}] =", in_rattle(endings)
    yield f"{CRATE}/data_url.rt", f"MIME_TYPES: [(&str, MediaType); {len(mime_types)}] =", in_rattle(mime_types)
    for name, found in ("endings", endings), ("declarations", declarations), ("MIME types", mime_types):
        yield RUST, name, [f"    ({rust_key(key, name)}, MediaType::{found[key]})," for key in found]
    rows = [[f"`{key}`", f"`{endings[key]}`", *declared(endings[key], declarations)] for key in endings]
    yield PAGE, "endings", table("Ending | Media type | Of declarations", rows)


def files() -> dict[str, str]:
    """The tables of code alone in TypeScript."""
    first = f"/** {GENERATED}: the tables of docs/media-types.json. */"
    lines = [first, "", 'import type { MediaType } from "modinfo";']
    for name, found in tables().items():
        constant = re.sub("(?=[A-Z])", "_", name).upper()
        lines += ["", f"export const {constant} = new Map<string, MediaType>(["]
        lines += [*(f'  ["{key}", "{found[key]}"],' for key in found if found[key] != "Json"), "]);"]
    return {GRAPH: "".join(f"{line}\n" for line in lines)}


def tables() -> dict[str, dict[str, str]]:
    found: dict[str, dict[str, str]] = json.loads((ROOT / "docs/media-types.json").read_text())
    return found


def rust_key(key: str, name: str) -> str:
    """The media type of declarations is looked up by a media type, the others by a text."""
    return f"MediaType::{key}" if name == "declarations" else f'"{key}"'


def in_rattle(found: dict[str, str]) -> list[str]:
    """An array of pairs."""
    return ["[", *(f'    ("{key}", MediaType::{found[key]}),' for key in found), "]"]


def declared(media_type: str, declarations: dict[str, str]) -> list[str]:
    """The cell of the media type of declaration files; empty if there are none."""
    return [f"`{declarations[media_type]}`" if media_type in declarations else ""]
