"""The JSON of documents."""

import json
from collections.abc import Mapping
from typing import Any, cast

from ._buffers import Buffer, contiguous, is_buffer

Document = Mapping[str, object] | str | Buffer


def json_of(value: object) -> str:
    return json.dumps(value, ensure_ascii=False, separators=(",", ":"), default=_as_dict)


def bytes_of(document: Document) -> Buffer:
    """The document's JSON. A lone surrogate becomes bytes that aren't UTF-8, which the library refuses as such."""
    if isinstance(document, Mapping):
        document = json_of(document)
    if isinstance(document, str):
        return document.encode(errors="surrogatepass")
    if isinstance(document, bytes) or is_buffer(document):
        return contiguous(cast(Buffer, document))
    raise TypeError(f"a document must be a mapping, a str or bytes, not {type(document).__name__}")


def _as_dict(value: object) -> dict[Any, Any]:
    """A mapping that json.dumps doesn't know."""
    if isinstance(value, Mapping):
        return dict(value)
    raise TypeError(
        f"a document may have mappings, lists, strings, numbers, True, False and None, not {type(value).__name__}"
    )
