"""From paths, folders and lines to sources."""

import json
import os
import sys
from collections.abc import Iterable, Iterator
from typing import Any, BinaryIO

import modinfo
from work import Module, Source

ENDINGS = (".js", ".jsx", ".mjs", ".cjs", ".ts", ".mts", ".cts", ".tsx")


def of_paths(paths: Iterable[str], end: bytes) -> Iterator[Source]:
    """A source for each path. A folder stands for the files in it whose names have an ending of JavaScript or
    TypeScript, and `-` for the paths in the standard input, each with this byte at its end."""
    for path in paths:
        if path == "-":
            yield from map(of_path, map(os.fsdecode, parts_of(sys.stdin.buffer, end)))
        elif os.path.isdir(path):
            for folder, folders, names in os.walk(path):
                folders.sort()
                yield from (of_path(os.path.join(folder, name)) for name in sorted(names) if name.endswith(ENDINGS))
        else:
            yield of_path(path)


def parts_of(stream: BinaryIO, end: bytes) -> Iterator[bytes]:
    rest = b""
    while block := stream.read(1 << 16):
        *parts, rest = (rest + block).split(end)
        yield from parts
    yield from [rest] * bool(rest)


def of_path(path: str) -> Source:
    return Source(modinfo.file_url(path), os.path.abspath(path))


def of_texts(path: str) -> Iterator[Source | Module]:
    """A source for each line of a file, a document of `modinfo analyze --source`. A line that is none has a fault."""
    name = os.fsencode(path).decode(errors="backslashreplace")
    with open(path, "rb") as file:
        for number, line in enumerate(file, 1):
            try:
                yield of_document(json.loads(line))
            except (ValueError, KeyError, TypeError, AttributeError, RecursionError):
                yield Module(f"{name}:{number}", None, "Json: no document of `modinfo analyze --source`", [])


def of_document(document: Any) -> Source:
    """Besides the members that the program reads, a document may have those of a package that the text comes from."""
    specifier, others = str(document["specifier"]), [document.get(name) for name in ("mediaType", "package", "version")]
    if not all(isinstance(other, str | None) for other in others):
        raise TypeError("a media type, a package and a version are texts")
    # SQLite and the hash take no lone surrogate.
    "".join([specifier, *filter(None, others)]).encode()
    return Source(specifier, document["source"].encode(errors="surrogatepass"), *others)
