"""How the wheel is made, by Debian's Python, in copies of the sources."""

import email
import hashlib
import json
import os
import re
import shutil
import subprocess
import tarfile
import tempfile
import zipfile
from collections.abc import Iterator
from pathlib import Path

import pytest
from repository import ROOT

PYTHON = "/usr/bin/python3"
SOURCES = ROOT / "bindings/python"
LIBRARY = Path(os.environ.get("MODINFO_LIB_DIR") or ROOT / "build") / "libmodinfo.so"
NOBODY = 65534


@pytest.fixture
def room() -> Iterator[Path]:
    """A folder that every user can read."""
    with tempfile.TemporaryDirectory() as name:
        os.chmod(name, 0o755)
        yield Path(name)


SUMMARY = "What one JavaScript or TypeScript module depends on, from its text"


def stamp_of(room: Path, kind: str) -> str:
    """What tools/build_library and tools/build_unchecked write beside a library, by tools/sources.py."""
    file = hashlib.sha256((room / "library/libmodinfo.so").read_bytes()).hexdigest()
    return f"{kind}\nsources 0123\nfile {file}\n"


def copy_of(room: Path) -> Path:
    """A copy of the package, and of the library with a stamp of a proved one."""
    copy = room / "bindings/python"
    shutil.copytree(SOURCES, copy, ignore=shutil.ignore_patterns("__pycache__", "*.egg-info", "build"))
    (room / "library").mkdir()
    shutil.copy(LIBRARY, room / "library")
    (room / "library/libmodinfo.so.origin").write_text(stamp_of(room, "proved"))
    return copy


def run(*words: str | Path, library: Path | None, prefix: list[str] | None = None) -> subprocess.CompletedProcess[str]:
    environment = {"PATH": os.environ["PATH"], "SOURCE_DATE_EPOCH": "1700000000"}
    if library is not None:
        environment["MODINFO_LIB_DIR"] = str(library)
    return subprocess.run(
        [*(prefix or []), *map(str, words)], cwd="/", env=environment, capture_output=True, text=True, check=False
    )


def made(folder: Path) -> Path:
    [wheel] = folder.glob("modinfo-*.whl")
    return wheel


def test_that_the_same_sources_make_the_same_bytes(room: Path) -> None:
    copy = copy_of(room)
    first = run(copy / "make_wheel", room / "first", library=room / "library")
    assert (first.returncode, first.stderr) == (0, "")
    os.utime(copy / "src/modinfo/__init__.py", (1, 1_600_000_000))
    shutil.move(copy, room / "elsewhere")
    umask = ["sh", "-c", 'umask 077; TZ=Asia/Tokyo exec "$@"', "sh"]
    run(room / "elsewhere/make_wheel", room / "second", library=room / "library", prefix=umask)
    assert made(room / "first").read_bytes() == made(room / "second").read_bytes()
    with zipfile.ZipFile(made(room / "first")) as wheel:
        assert {entry.date_time[:3] for entry in wheel.infolist()} == {(2023, 11, 14)}


def test_that_a_wheel_is_tagged_by_what_its_library_needs(room: Path) -> None:
    """The newest version of a symbol of the C library, as readelf reads them."""
    run(copy_of(room) / "make_wheel", room, library=room / "library")
    versions = subprocess.run(["readelf", "-V", LIBRARY], capture_output=True, text=True, check=True).stdout
    newest = max((int(major), int(minor)) for major, minor in re.findall(r"Name: GLIBC_(\d+)\.(\d+)", versions))
    major, minor = max(newest, (2, 17))
    assert made(room).name.endswith(f"-py3-none-manylinux_{major}_{minor}_{os.uname().machine}.whl")


def metadata_of(wheel: Path) -> tuple[str, str, str]:
    """The summary, the keywords and the first line of the description."""
    with zipfile.ZipFile(wheel) as archive:
        [name] = [name for name in archive.namelist() if name.endswith("/METADATA")]
        found = email.message_from_bytes(archive.read(name))
    keywords = found["Keywords"].removeprefix("javascript,typescript,dependencies,imports,")
    return found["Summary"], keywords, found.get_payload(decode=True).decode().splitlines()[0]


def test_that_a_wheel_says_that_its_library_is_proved(room: Path) -> None:
    done = run(copy_of(room) / "make_wheel", room, library=room / "library")
    assert (done.returncode, done.stderr) == (0, "")
    claim = json.loads((ROOT / "docs/commands.json").read_text())["claim"]
    proved = f"{SUMMARY}. {claim}", "modinfo-build=proved,modinfo-sources=0123"
    assert metadata_of(made(room)) == (*proved, "# modinfo for Python")
    with zipfile.ZipFile(made(room)) as wheel:
        assert wheel.read("modinfo/libmodinfo.so.origin").decode() == stamp_of(room, "proved")


def test_a_library_that_was_installed(room: Path) -> None:
    """By tools/install, whose file for pkg-config has whether the library is proved."""
    copy = copy_of(room)
    (room / "library/libmodinfo.so.origin").unlink()
    (room / "library/pkgconfig").mkdir()
    page = (ROOT / "packaging/modinfo.pc.in").read_text()
    for kind, status in ("proved", 0), ("unchecked", 1):
        (room / "library/pkgconfig/modinfo.pc").write_text(page.replace("@BUILD@", kind).replace("@SOURCES@", "0123"))
        assert run(copy / "make_wheel", room / kind, library=room / "library").returncode == status
    assert metadata_of(made(room / "proved"))[1] == "modinfo-build=proved,modinfo-sources=0123"


def test_that_an_unchecked_library_is_refused(room: Path) -> None:
    """Without a stamp, with the stamp of another file, and by its stamp. With --unchecked the wheel says it first."""
    copy = copy_of(room)
    stamp = room / "library/libmodinfo.so.origin"
    stamp.unlink()
    for text in None, "proved\nsources 0123\nfile 0\n", stamp_of(room, "unchecked"):
        if text is not None:
            stamp.write_text(text)
        done = run(copy / "make_wheel", room, library=room / "library")
        assert done.returncode == 1 and not list(room.glob("*.whl"))
        refused = "libmodinfo.so isn't proved, by the stamp beside it: run tools/build_library, or say --unchecked"
        assert refused in done.stderr
    done = run(copy / "make_wheel", "--unchecked", room, library=room / "library")
    assert (done.returncode, done.stderr) == (0, "")
    warning = "This build is unchecked: nothing is proved of it."
    assert metadata_of(made(room)) == (
        f"{SUMMARY}. {warning}",
        "modinfo-build=unchecked,modinfo-sources=0123",
        warning,
    )


@pytest.mark.parametrize("words", [[], ["--other"], ["a", "b"], ["--unchecked"]], ids=str)
def test_words_that_are_no_usage(words: list[str]) -> None:
    done = run(SOURCES / "make_wheel", *words, library=LIBRARY.parent)
    assert (done.returncode, done.stderr) == (2, "usage: bindings/python/make_wheel [--unchecked] FOLDER\n")


def test_a_checkout_that_cannot_be_written_to(room: Path) -> None:
    copy = copy_of(room)
    subprocess.run(["chmod", "-R", "a-w", copy], check=True)
    (room / "out").mkdir(mode=0o777)
    os.chmod(room / "out", 0o777)
    (room / "tmp").mkdir()
    os.chmod(room / "tmp", 0o777)
    user = ["setpriv", f"--reuid={NOBODY}", f"--regid={NOBODY}", "--clear-groups"] if os.geteuid() == 0 else []
    temporary = [*user, "env", f"TMPDIR={room}/tmp"]
    done = run(copy / "make_wheel", room / "out", library=room / "library", prefix=temporary)
    subprocess.run(["chmod", "-R", "u+w", copy], check=True)
    assert (done.returncode, done.stderr) == (0, "")
    assert made(room / "out").exists()
    assert list((room / "tmp").iterdir()) == []


def pip(*words: str | Path, library: Path | None) -> subprocess.CompletedProcess[str]:
    options = ["--no-build-isolation", "--no-index", "--no-deps"]
    return run(PYTHON, "-m", "pip", *words[:1], *options, *words[1:], library=library)


def test_an_editable_install(room: Path) -> None:
    copy = copy_of(room)
    done = pip("install", "--break-system-packages", "--target", room / "to", "-e", copy, library=room / "library")
    assert done.returncode != 0
    assert "an editable install would have no library. Make a wheel by bindings/python/make_wheel" in done.stderr


def test_an_archive_of_the_sources(room: Path) -> None:
    copy = copy_of(room)
    build = f"import os, setuptools.build_meta as build; os.chdir({str(copy)!r}); build.build_sdist({str(room)!r})"
    done = run(PYTHON, "-c", build, library=None)
    assert done.returncode == 0, done.stderr
    [archive] = room.glob("modinfo-*.tar.gz")
    with tarfile.open(archive) as sources:
        member = sources.extractfile(f"{archive.name.removesuffix('.tar.gz')}/PKG-INFO")
        assert member is not None and email.message_from_bytes(member.read())["Summary"] == SUMMARY
    without = pip("wheel", "--wheel-dir", room / "without", archive, library=None)
    assert without.returncode != 0
    assert "set MODINFO_LIB_DIR to the folder of libmodinfo.so" in without.stderr
    done = pip("wheel", "--wheel-dir", room / "with", archive, library=room / "library")
    assert done.returncode == 0, done.stderr
    with zipfile.ZipFile(made(room / "with")) as wheel:
        assert {"modinfo/libmodinfo.so", "modinfo/py.typed"} <= set(wheel.namelist())
