"""Documents in memory that isn't a bytes object, of which nothing is copied if its bytes are one after the other."""

import array
import json
import mmap
from collections.abc import Callable
from pathlib import Path
from typing import Any

import pytest
from repository import EXAMPLES

import modinfo
from modinfo import _buffers, _library

DOCUMENT = (EXAMPLES / "page.json").read_bytes()
SPECIFIER = json.loads(DOCUMENT)["specifier"]
ANSWER = json.loads((EXAMPLES / "page.out.json").read_text())


def mapped(document: bytes, folder: Path, access: int) -> mmap.mmap:
    (folder / "document").write_bytes(document)
    with open(folder / "document", "r+b") as file:
        return mmap.mmap(file.fileno(), 0, access=access)


MAKERS: dict[str, Callable[[bytes, Path], Any]] = {
    "bytes": lambda document, _: document,
    "bytearray": lambda document, _: bytearray(document),
    "memoryview": lambda document, _: memoryview(document),
    "each second byte": lambda document, _: memoryview(bytes(byte for byte in document for _ in "ab"))[::2],
    "a part": lambda document, _: memoryview(b"[[" + document + b"]]")[2:-2],
    "array": lambda document, _: array.array("B", document),
    "subclass": lambda document, _: type("Sub", (bytes,), {})(document),
    "mmap": lambda document, folder: mapped(document, folder, mmap.ACCESS_WRITE),
    "mmap for reading": lambda document, folder: mapped(document, folder, mmap.ACCESS_READ),
}


@pytest.mark.parametrize("make", MAKERS.values(), ids=MAKERS)
def test_a_document_in_a_buffer(make: Callable[[bytes, Path], Any], tmp_path: Path) -> None:
    buffer = make(DOCUMENT, tmp_path)
    assert modinfo.analyze(buffer) == ANSWER
    assert modinfo.check(buffer) == {"valid": True}
    for jobs in 1, 2:
        lines = modinfo.analyze_lines([buffer, buffer], jobs)
        assert [json.loads(line) for line in lines] == [{"answer": ANSWER}] * 2
    assert list(modinfo.analyze_many([buffer])) == [(SPECIFIER, modinfo.ModuleInfo.from_dict(ANSWER))]
    assert bytes(memoryview(buffer)) == DOCUMENT


@pytest.mark.parametrize("make", MAKERS.values(), ids=MAKERS)
def test_that_a_buffer_is_refused_by_its_content(make: Callable[[bytes, Path], Any], tmp_path: Path) -> None:
    with pytest.raises(modinfo.Fault, match="^Json at line 1, column 2 "):
        modinfo.analyze(make(b"{", tmp_path))


@pytest.mark.parametrize("empty", [b"", bytearray(), memoryview(b""), array.array("B")], ids=repr)
def test_an_empty_buffer(empty: Any) -> None:
    with pytest.raises(modinfo.Fault, match="^Json at line 1, column 1 "):
        modinfo.analyze(empty)


@pytest.mark.parametrize("make", MAKERS.values(), ids=MAKERS)
def test_a_text_in_a_buffer(make: Callable[[bytes, Path], Any], tmp_path: Path) -> None:
    [dependency] = modinfo.module_info(make(b'import "a";', tmp_path), "file:///b.js").dependencies
    assert isinstance(dependency, modinfo.StaticDependency) and dependency.specifier == "a"


@pytest.mark.parametrize("make", [MAKERS["bytearray"], MAKERS["mmap for reading"]])
def test_that_nothing_is_copied(make: Callable[[bytes, Path], Any], tmp_path: Path) -> None:
    """The library is handed the address that the buffer itself has."""
    buffer = make(DOCUMENT, tmp_path)
    seen = []

    def function(address: int, length: int, answer: int, room: int, written: int) -> int:
        seen.append((address, length))
        return _library.ANSWERED

    _library.Room().call(function, buffer)
    with _buffers.Memory(buffer) as place:
        assert seen == [place]
    assert place[1] == len(DOCUMENT)


def test_that_a_buffer_is_free_after_a_call(tmp_path: Path) -> None:
    growing = bytearray(b"{")
    with pytest.raises(modinfo.Fault):
        modinfo.analyze(growing)
    growing += b"}"
    map_of_file = mapped(DOCUMENT, tmp_path, mmap.ACCESS_READ)
    modinfo.analyze(map_of_file)
    map_of_file.close()
