"""From files to what they depend on."""

import os
import shutil
import socket
import subprocess
from pathlib import Path
from typing import Any

import pytest
from repository import SOURCES

import modinfo


@pytest.mark.parametrize("jobs", [1, 3])
def test_files(jobs: int, tmp_path: Path) -> None:
    """Neither a pipe nor a socket is waited for."""
    (tmp_path / "bad.ts").write_text("import {")
    (tmp_path / "bytes.ts").write_bytes(b"\xff")
    (tmp_path / "folder.ts").mkdir()
    os.mkfifo(tmp_path / "pipe.ts")
    with open(tmp_path / "large.ts", "wb") as large:
        large.truncate((64 << 20) + 1)
    with socket.socket(socket.AF_UNIX) as unix:
        unix.bind(str(tmp_path / "socket.ts"))
        names = ["bad.ts", "bytes.ts", "folder.ts", "pipe.ts", "large.ts", "socket.ts", "none.ts", "a\0.ts"]
        paths = [*(path for path, _ in SOURCES), *(tmp_path / name for name in names)]
        found = list(modinfo.files(paths, jobs))
    infos, faults = found[: len(SOURCES)], found[len(SOURCES) :]
    assert infos == [(path.as_uri(), modinfo.ModuleInfo.from_dict(wanted)) for path, wanted in SOURCES]
    assert [specifier for specifier, _ in faults[:-1]] == [(tmp_path / name).as_uri() for name in names[:-1]]
    assert [fault.name for _, fault in faults if isinstance(fault, modinfo.Fault)] == ["Syntax"] + ["Input"] * 7
    # A list of faults doesn't hold the texts that were read.
    assert all(
        fault.__traceback__ is fault.__context__ is None for _, fault in faults if isinstance(fault, modinfo.Fault)
    )


@pytest.mark.parametrize("jobs", [1, 3])
def test_a_media_type_of_all_files(jobs: int, tmp_path: Path) -> None:
    """In place of that of each ending. A cast with angle brackets is TypeScript, and no TSX."""
    for name in "a.txt", "b.tsx":
        (tmp_path / name).write_text("let a = <T>b; import('c');")
    found = [info for _, info in modinfo.files(tmp_path.iterdir(), jobs, "TypeScript")]
    assert found == [modinfo.module_info("let a = <T>b; import('c');", "a:b", "TypeScript")] * 2
    found = [info for _, info in modinfo.files(tmp_path.iterdir(), jobs, media_type="Tsx")]
    assert [getattr(fault, "name", None) for fault in found] == ["Syntax"] * 2
    with pytest.raises(ValueError, match="^media_type must be one of "):
        modinfo.files([], media_type="ts")  # type: ignore[arg-type]


def test_the_url_of_a_file(tmp_path: Path, monkeypatch: pytest.MonkeyPatch) -> None:
    """As node has it, but for the tilde, which RFC 3986 doesn't escape."""
    name = "".join(sorted({*map(chr, range(33, 127)), "é", "日", " "} - {"/", "\\"})) + ".ts"
    (tmp_path / name).write_text("")
    monkeypatch.chdir(tmp_path)
    [(specifier, info)] = modinfo.files([name])
    assert info == modinfo.ModuleInfo(script=True) and modinfo.file_url(name) == specifier
    if not shutil.which("node"):
        pytest.skip("node isn't here")
    program = "console.log(require('url').pathToFileURL(process.argv[1]).href)"
    printed = subprocess.run(["node", "-e", program, name], capture_output=True, text=True, check=True).stdout
    assert specifier == printed.strip().replace("%7E", "~")


def test_the_bytes_of_a_file(tmp_path: Path) -> None:
    (tmp_path / "a").write_bytes(b"\xff\r\n")
    assert modinfo.read_file(tmp_path / "a") == b"\xff\r\n"
    assert modinfo.read_file(f"/proc/self/root{tmp_path}/a") == b"\xff\r\n"


@pytest.mark.parametrize(
    "path, message",
    [
        ("/dev", "a folder: name its files, which git ls-files lists, or use the package for node"),
        ("/dev/zero", "no regular file"),
        ("/proc/self/status", "in /proc or /sys"),
        ("/dev/../sys/devices/system/cpu/online", "in /proc or /sys"),
    ],
)
def test_a_file_that_is_not_read(path: str, message: str, tmp_path: Path) -> None:
    """Nor through a link."""
    (tmp_path / "link").symlink_to(path)
    for each in path, tmp_path / "link":
        with pytest.raises(modinfo.Fault, match=f"^Input: {message}$"):
            modinfo.read_file(each)


@pytest.mark.parametrize("paths", ["a.ts", b"a.ts", Path("a.ts")], ids=repr)
def test_one_path_for_a_list(paths: Any) -> None:
    with pytest.raises(TypeError, match="^paths must be a list of paths, not "):
        modinfo.files(paths)


def test_that_files_are_read_as_they_are_asked_for(tmp_path: Path) -> None:
    (tmp_path / "a.ts").write_text("")
    read = 0

    def paths() -> Any:
        nonlocal read
        for read in range(1, 100_000):
            yield tmp_path / "a.ts"

    found = modinfo.files(paths(), jobs=2)
    next(found)
    assert read <= 4
