"""What a worker does with a batch of files or texts. This file is sent to each worker."""

import hashlib
import json
import os
import re
import signal
import threading
from collections.abc import Callable, Iterator
from functools import lru_cache
from typing import NamedTuple

import modinfo

# A file URL, and the ending of its name from the first point on, which alone decides the media type.
FILE_URL = re.compile(r"file://[^?#]*/[^/?#%.]+(\.[^/?#%]+)")
PRAGMAS = ("self_types_specifier", "jsx_import_source", "jsx_import_source_types")


class Source(NamedTuple):
    """A module to analyze: its URL, the path of its file or its text, and the package that a text comes from."""

    specifier: str
    content: str | bytes
    media_type: modinfo.MediaType | None = None
    package: str | None = None
    version: str | None = None


class Row(NamedTuple):
    """A dependency, as SQLite holds it. `specifier` is None where the argument of a call isn't one text. `parts` and
    `attributes` are JSON."""

    kind: str
    is_dynamic: int
    specifier: str | None
    package: str | None
    parts: str | None
    line: int
    character: int
    types: str | None = None
    attributes: str | None = None


class Module(NamedTuple):
    """What was found for a source. `hash` is None where another run may find something else. `length` is that of the
    text, in bytes, where only the head of the module is known: no rows, and no fault of the text."""

    specifier: str
    hash: bytes | None
    fault: str | None
    rows: list[Row]
    package: str | None = None
    version: str | None = None
    length: int | None = None


def each_of(batch: list[Source], function: Callable[[Source], Module], seconds: float) -> list[Module]:
    """The function's result for each source. The worker ends where that takes longer than so many seconds."""
    timer = threading.Timer(seconds, os.kill, [os.getpid(), signal.SIGKILL])
    timer.daemon = True
    timer.start()
    try:
        return [function(source) for source in batch]
    finally:
        timer.cancel()


def analyze(source: Source, is_head: bool = False) -> Module:
    """What is found for a source. No error of one ends the work on others."""
    digest, content, origin = None, source.content, (source.package, source.version)
    try:
        if isinstance(content, str):
            origin = package_of_folder(os.path.dirname(content))
        text = content if isinstance(content, bytes) else modinfo.read_file(content)
        digest = hash_of(source, text)
        if is_head:
            return Module(source.specifier, digest, None, [], *origin, length=len(text))
        info = modinfo.module_info(text, source.specifier, source.media_type)
        return Module(source.specifier, digest, None, list(rows_of(info)), *origin)
    except modinfo.Fault as fault:
        return Module(source.specifier, None if fault.name == "OutOfMemory" else digest, str(fault), [], *origin)
    except Exception as error:
        return Module(source.specifier, None, f"{type(error).__name__}: {error}", [], *origin)


@lru_cache(maxsize=1 << 16)
def package_of_folder(folder: str) -> tuple[str | None, str | None]:
    """The name and the version in package.json of a folder or, where there is none with a name, of one above."""
    try:
        named = json.loads(modinfo.read_file(f"{folder}/package.json"))
        return str(named["name"]), str(named["version"]) if "version" in named else None
    except (modinfo.Fault, ValueError, KeyError, TypeError, RecursionError):
        above = os.path.dirname(folder)
        return package_of_folder(above) if above != folder else (None, None)


def hash_of(source: Source, text: bytes) -> bytes:
    """Equal for sources of which the same is found: by their text, their media type and the library's version."""
    ending = FILE_URL.fullmatch(source.specifier)
    media_type = source.media_type or (ending[1] if ending else source.specifier)
    parts = modinfo.version().encode(), media_type.encode(), text
    # Lengths come first, since a part may hold any byte.
    return hashlib.sha256(b"%d %d %d " % (*map(len, parts),) + b"".join(parts)).digest()


def package_of(specifier: str) -> str | None:
    """The package that a specifier names, `fs` for `node:fs`. None for a path and for another URL."""
    bare = specifier.removeprefix("node:")
    if bare.startswith((".", "/", "#")) or ":" in bare:
        return None
    return "/".join(bare.split("/")[: 2 if bare.startswith("@") else 1]) or None


def rows_of(info: modinfo.ModuleInfo) -> Iterator[Row]:
    for each in info.dependencies:
        known = each.import_attributes and each.to_dict()["importAttributes"]
        attributes = known and json.dumps(known if known == "unknown" else known["known"])
        types = each.types_specifier and each.types_specifier.text
        if isinstance(each, modinfo.StaticDependency):
            start, text, parts = each.specifier_range.start, each.specifier, None
        else:
            start, argument = each.argument_range.start, each.argument
            text = argument if isinstance(argument, str) else None
            parts = json.dumps(each.to_dict()["argument"]) if isinstance(argument, tuple) else None
        package, is_dynamic = text and package_of(text), int(each.type == "dynamic")
        yield Row(each.kind, is_dynamic, text, package, parts, start.line, start.character, types, attributes)
    named = [(f"reference {each.type}", each) for each in info.ts_references]
    named += [("jsdoc", each) for each in info.jsdoc_imports]
    named += [(kind, getattr(info, kind)) for kind in PRAGMAS]
    for kind, found in named:
        if found is not None:
            mode = getattr(found, "resolution_mode", None)
            start, attributes = found.range.start, mode and json.dumps({"resolution-mode": mode})
            package = None if kind == "reference path" else package_of(found.text)
            yield Row(kind, 0, found.text, package, None, start.line, start.character, None, attributes)
