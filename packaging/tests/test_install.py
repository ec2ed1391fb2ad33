"""Tests tools/install in empty folders: which files it installs, that they work there, and its errors."""

import hashlib
import json
import shutil
import subprocess
from pathlib import Path

import pytest
from installed import FUNCTIONS, ROOT, VERSION, analyzed, run

CMAKE = """\
cmake_minimum_required(VERSION 3.16)
project(example C)
find_package(modinfo VERSION REQUIRED CONFIG)
add_executable(shared analyze.c)
target_link_libraries(shared modinfo::modinfo)
add_executable(static analyze.c)
target_link_libraries(static modinfo::static)
"""
CALLS = """\
import json, modinfo, sys
assert modinfo.__file__.startswith(sys.prefix)
for command, document, answer in zip(*[iter(sys.argv[1:])] * 3):
    assert getattr(modinfo, command)(open(document, "rb").read()) == json.load(open(answer))
"""
PAGE, PAGE_OUTPUT = ROOT / "examples/page.json", ROOT / "examples/page.out.json"


def wanted(libraries: str) -> set[str]:
    """The files below a prefix."""
    manuals = ["man1/module-info.1", *(f"man3/{function}.3" for function in FUNCTIONS)]
    documents = ["copyright", "origin", "ESTREE.md", "FORMATS.md"]
    documents += [f"{name}.schema.json" for name in ("document", "module-info", "report")]
    names = [f"libmodinfo.{ending}" for ending in ("a", "so", "so.0", f"so.{VERSION}")]
    names += [
        "pkgconfig/modinfo.pc",
        "cmake/modinfo/modinfo-config.cmake",
        "cmake/modinfo/modinfo-config-version.cmake",
    ]
    return {
        "bin/module-info",
        "include/modinfo.h",
        "include/modinfo.hpp",
        *(f"{libraries}/{name}" for name in names),
        *(f"share/doc/modinfo/{name}" for name in documents),
        *(f"share/man/{name}" for name in manuals),
        "share/bash-completion/completions/module-info",
        "share/fish/vendor_completions.d/module-info.fish",
        "share/zsh/site-functions/_module-info",
    }


def files(folder: Path) -> set[str]:
    return {str(path.relative_to(folder)) for path in folder.rglob("*") if path.is_symlink() or not path.is_dir()}


def test_files(prefix: Path, in_place_of_root: Path) -> None:
    run(ROOT / "tools/install", prefix)
    assert files(prefix) == wanted("lib")
    assert files(in_place_of_root) == {f"opt/of/it/{name}" for name in wanted("lib/there")}


def test_pkg_config(in_place_of_root: Path) -> None:
    folder = str(in_place_of_root / "opt/of/it/lib/there/pkgconfig")
    words = run("pkg-config", "--cflags", "--libs", "modinfo", PKG_CONFIG_PATH=folder).split()
    assert words == ["-I/opt/of/it/include", "-L/opt/of/it/lib/there", "-lmodinfo"]


@pytest.mark.parametrize("words", [["prefix"], [], ["/a b"]])
def test_words(words: list[str]) -> None:
    run(ROOT / "tools/install", *words, status=2)


def copy_built(clone: Path) -> None:
    """Copies the program and the library to a clone."""
    (clone / "build").mkdir()
    for name in "modinfo", "libmodinfo.a", "libmodinfo.so":
        for file in name, f"{name}.sources", f"{name}.origin":
            shutil.copy(ROOT / "build" / file, clone / "build")


def test_what_is_missing_or_old(tmp_path: Path) -> None:
    """A program is old where one of its sources is newer."""
    clone, nothing = tmp_path / "clone", tmp_path / "nothing"
    run("git", "clone", "-q", ROOT, clone)
    run(clone / "tools/install", nothing, status=1)
    copy_built(clone)
    for source in "modinfo_c/src/lib.rt", "modinfo_cli/src/main.rt":
        run("touch", "-d", "tomorrow", clone / "crates" / source)
        run(clone / "tools/install", nothing, status=1)
    assert not nothing.exists()


def test_what_is_not_proved(tmp_path: Path) -> None:
    """An unchecked file in the place of a proved one is refused: by its stamp, without one, with another's stamp."""
    clone, nothing = tmp_path / "clone", tmp_path / "nothing"
    run("git", "clone", "-q", ROOT, clone)
    copy_built(clone)
    program, stamp = clone / "build/modinfo", clone / "build/modinfo.origin"
    proved = stamp.read_text()
    stamp.write_text(proved.replace("proved", "unchecked", 1))
    assert "isn't proved" in run(clone / "tools/install", nothing, status=1)
    stamp.unlink()
    assert "isn't proved" in run(clone / "tools/install", nothing, status=1)
    stamp.write_text(proved)
    program.write_bytes(program.read_bytes() + b"\n")
    assert "isn't proved" in run(clone / "tools/install", nothing, status=1)
    assert not nothing.exists()


def test_where_files_come_from(prefix: Path) -> None:
    """The hash of the sources is that of the stamp."""
    lines = (prefix / "share/doc/modinfo/origin").read_text().splitlines()
    for line, name in zip(lines, ["modinfo", "libmodinfo.a", "libmodinfo.so"], strict=True):
        kind, sources, file = (ROOT / f"build/{name}.origin").read_text().splitlines()
        assert line == f"{name}: {kind}, {sources}"
        assert kind == "proved"
        assert file == f"file {hashlib.sha256((ROOT / 'build' / name).read_bytes()).hexdigest()}"
    folder = str(prefix / "lib/pkgconfig")
    assert run("pkg-config", "--variable=build", "modinfo", PKG_CONFIG_PATH=folder) == "proved\n"


@pytest.mark.parametrize("output", sorted(ROOT.glob("examples/*.out.json")), ids=lambda path: path.name)
def test_the_program(prefix: Path, output: Path) -> None:
    document = output.with_name(output.name.replace(".out.json", ".json"))
    assert analyzed(prefix / "bin/module-info", document) == json.loads(output.read_text())


def test_c_and_python_by_pkg_config(prefix: Path) -> None:
    run(ROOT / "examples/embed", prefix)


def test_manual_pages(prefix: Path) -> None:
    if not shutil.which("man"):
        pytest.skip("man isn't on the path")
    pages = prefix / "share/man"
    assert Path(run("man", "-M", pages, "-w", "module-info").strip()) == (pages / "man1/module-info.1").resolve()
    assert "MODINFO_TOO_SMALL" in run("man", "-M", pages, "3", "modinfo_check")


def test_the_example_of_the_functions_page(prefix: Path, tmp_path: Path) -> None:
    """As a reader would type it."""
    page = (prefix / "share/man/man3/modinfo_analyze.3").read_text()
    shown = page.split("\n.RS 4\n", 1)[1].split("\n.RE\n")[0].splitlines()
    source = "\n".join(line for line in shown if not line.startswith(".R"))
    (tmp_path / "page.c").write_text(source.replace("\\e", "\\").replace("\\-", "-") + "\n")
    folder = str(prefix / "lib/pkgconfig")
    words = run("pkg-config", "--cflags", "--libs", "modinfo", PKG_CONFIG_PATH=folder).split()
    run("cc", "-Wall", "-Wextra", "-Werror", "-o", "page", "page.c", *words, folder=tmp_path)
    assert '"specifier":"./b.js"' in run("./page", folder=tmp_path, LD_LIBRARY_PATH=str(prefix / "lib"))


def configured(folder: Path, version: str, modinfo: Path, status: int = 0) -> None:
    shutil.copy(ROOT / "examples/embedding/analyze.c", folder)
    (folder / "CMakeLists.txt").write_text(CMAKE.replace("modinfo VERSION", f"modinfo {version}"))
    run("cmake", "-S", folder, "-B", folder / "build", f"-Dmodinfo_DIR={modinfo}", status=status)


@pytest.mark.parametrize("place", ["prefix", "in_place_of_root"])
def test_cmake(place: str, request: pytest.FixtureRequest, tmp_path: Path) -> None:
    """From two folders of libraries, one that is deeper, with the shared library and with the archive."""
    if not shutil.which("cmake"):
        pytest.skip("cmake isn't on the path")
    [description] = request.getfixturevalue(place).rglob("modinfo-config.cmake")
    configured(tmp_path, VERSION, description.parent)
    run("cmake", "--build", tmp_path / "build")
    for program in "shared", "static":
        assert run(tmp_path / "build" / program, PAGE) == PAGE_OUTPUT.read_text()
    (other := tmp_path / "other").mkdir()
    configured(other, "0.2.0", description.parent, status=1)


def test_python(prefix: Path, tmp_path: Path) -> None:
    """The wheel is made and run in other folders, with nothing but the installed files."""
    if subprocess.run([ROOT / "tools/setup", "python"], check=False).returncode:
        pytest.skip("what makes a wheel can't be installed")
    run(ROOT / "bindings/python/make_wheel", tmp_path, MODINFO_LIB_DIR=str(prefix / "lib"))
    run("/usr/bin/python3", "-m", "venv", tmp_path / "venv")
    run(tmp_path / "venv/bin/pip", "install", "--no-index", *tmp_path.glob("modinfo-*.whl"))
    examples = ROOT / "examples"
    calls = ["analyze", PAGE, PAGE_OUTPUT, "reach", examples / "site.reach.json", examples / "site.reached.json"]
    run(tmp_path / "venv/bin/python", "-c", CALLS, *calls, folder=tmp_path)
