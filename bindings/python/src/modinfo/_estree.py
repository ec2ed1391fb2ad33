"""The JSON of a document with the tree of a parser."""

import json
import struct
from collections.abc import Iterable, Mapping
from typing import Any, Literal

from ._json import json_of
from .document import MediaType

Offsets = Literal["utf16", "utf8"]
Comments = Iterable[Mapping[str, object]]


def estree_json(
    specifier: str,
    media_type: MediaType,
    source: str,
    program: Mapping[str, object],
    comments: Comments | None,
    offsets: Offsets,
) -> bytes:
    """The document's JSON. A lone surrogate outside of the tree becomes bytes that aren't UTF-8, which the library
    refuses as such."""
    document: dict[str, object] = {
        "specifier": specifier,
        "mediaType": media_type,
        "source": source,
        "offsets": offsets,
        "program": program,
    }
    if comments is not None:
        document["comments"] = list(comments)
    text = json_of(document)
    try:
        return text.encode()
    except UnicodeEncodeError:
        document["program"] = _with_units(json.loads(json_of(program)))
        return json_of(document).encode(errors="surrogatepass")


def _with_units(value: Any) -> Any:
    """The value with each string that has a lone surrogate as the list of its UTF-16 units."""
    if isinstance(value, dict):
        return {name: _with_units(part) for name, part in value.items()}
    if isinstance(value, list):
        return [_with_units(part) for part in value]
    if isinstance(value, str):
        return _text_or_units(value)
    return value


def _text_or_units(text: str) -> str | list[int]:
    try:
        text.encode()
        return text
    except UnicodeEncodeError:
        units = text.encode("utf-16-le", errors="surrogatepass")
        return list(struct.unpack(f"<{len(units) // 2}H", units))
