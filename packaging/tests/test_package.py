"""Tests tools/package: that the same commit and the same files in build/ give the same bytes in any folder, and what is
in the packages."""

import re
import shutil
from pathlib import Path

import pytest
from installed import ROOT, VERSION, analyzed, run

DEBS = [f"{name}_{VERSION}_amd64.deb" for name in ("libmodinfo0", "libmodinfo-dev", "modinfo-tool")]
TARBALL = f"modinfo-{VERSION}-linux-x86_64.tar.gz"
STATIC = f"modinfo-{VERSION}-linux-x86_64-static.tar.gz"
LATER = "1000000000"

is_ready = shutil.which("dpkg-buildpackage") and shutil.which("dh")
pytestmark = pytest.mark.skipif(not is_ready, reason="dpkg-dev and debhelper aren't installed")


def has_static() -> bool:
    return (ROOT / "build/modinfo_static.origin").exists()


def packed(clone: Path, umask: str, **environment: str) -> str:
    """Makes the packages of a clone of HEAD, and returns what is printed."""
    run("git", "clone", "-q", ROOT, clone)
    (clone / "build").mkdir()
    names = ["modinfo", "libmodinfo.a", "libmodinfo.so"]
    for name in [*names, "modinfo_static"] if has_static() else names:
        for file in name, f"{name}.sources", f"{name}.origin":
            shutil.copy2(ROOT / "build" / file, clone / "build")
            (clone / "build" / file).touch()
    return run("bash", "-c", f"umask {umask} && {clone}/tools/package", **environment)


@pytest.fixture(scope="module")
def first(tmp_path_factory: pytest.TempPathFactory) -> Path:
    clone = tmp_path_factory.mktemp("first") / "clone"
    packed(clone, "022", TZ="UTC", LC_ALL="C")
    return clone


@pytest.fixture(scope="module")
def tree(first: Path, tmp_path_factory: pytest.TempPathFactory) -> Path:
    """What the Debian packages install."""
    folder = tmp_path_factory.mktemp("tree")
    for deb in DEBS:
        run("dpkg-deb", "--extract", first / "build" / deb, folder)
    return folder


def contents(first: Path) -> list[list[str]]:
    """Of each file in the Debian packages its mode, owner, size, day, time and name."""
    return [line.split() for deb in DEBS for line in run("dpkg-deb", "--contents", first / "build" / deb).splitlines()]


def test_the_same_bytes(first: Path, tmp_path: Path) -> None:
    second = tmp_path / "another/place/second"
    sums = packed(second, "077", TZ="Asia/Tokyo", LC_ALL="C.UTF-8")
    assert sums == (first / "build/SHA256SUMS").read_text()
    run("sha256sum", "--check", "--strict", "SHA256SUMS", folder=first / "build")
    page = (ROOT / "packaging/README.md").read_text()
    for name in [*DEBS, TARBALL, *[STATIC] * has_static()]:
        assert (first / "build" / name).read_bytes() == (second / "build" / name).read_bytes()
        assert f"`{name}`" in page
    run(second / "tools/package", "--output", tmp_path / "later", SOURCE_DATE_EPOCH=LATER)
    assert (first / "build" / DEBS[0]).read_bytes() != (tmp_path / "later" / DEBS[0]).read_bytes()


def test_a_given_version_without_git(first: Path, tmp_path: Path) -> None:
    shutil.copytree(first, tmp_path / "copy", ignore=shutil.ignore_patterns(".git"), symlinks=True)
    words = ["--version", f"{VERSION}+1", "--output", tmp_path / "given"]
    run(tmp_path / "copy/tools/package", *words, SOURCE_DATE_EPOCH=LATER)
    deb = tmp_path / f"given/libmodinfo0_{VERSION}+1_amd64.deb"
    assert run("dpkg-deb", "--field", deb, "Version") == f"{VERSION}+1\n"


@pytest.mark.parametrize("word", ["--output", "build"])
def test_words(word: str) -> None:
    run(ROOT / "tools/package", word, status=2)


def test_owners_times_and_files(first: Path) -> None:
    """The files belong to root, have one time, and are in the usual folders."""
    rows = contents(first)
    assert {row[1] for row in rows} == {"root/root"}
    assert len({(row[3], row[4]) for row in rows}) == 1
    wanted = set()
    for name in run("tar", "--list", "--gzip", "--file", first / "build" / TARBALL).splitlines():
        path = re.sub(r"^[^/]*", "./usr", name).replace("/lib/", "/lib/x86_64-linux-gnu/")
        # Debian has another folder for completions of packages.
        path = path.replace("/zsh/site-functions/", "/zsh/vendor-completions/")
        wanted.add(f"{path}.gz" if "/man/" in path else path)
    found = {row[5] for row in rows}
    others = re.compile(r".*/|.*/\.gz|.*/share/(doc|lintian)/.*")
    assert {name for name in found if not others.fullmatch(name)} == {
        name for name in wanted if not others.fullmatch(name)
    }


@pytest.mark.parametrize(
    ("deb", "file"), [(DEBS[0], "usr/lib/*/libmodinfo.so.*.*.*"), (DEBS[2], "usr/bin/module-info")]
)
def test_the_c_library_that_is_needed(first: Path, tree: Path, deb: str, file: str) -> None:
    [path] = tree.glob(file)
    symbols = run("readelf", "--dyn-syms", "--wide", path)
    newest = max(tuple(map(int, found.split("."))) for found in re.findall(r"@GLIBC_([\d.]+)", symbols))
    depends = run("dpkg-deb", "--field", first / "build" / deb, "Depends")
    assert depends == f"libc6 (>= {'.'.join(map(str, newest))})\n"


def test_where_packages_come_from(first: Path, tree: Path) -> None:
    """Each from the file that it is made for."""
    for deb, name in zip(DEBS, ["libmodinfo.so", "libmodinfo.so", "modinfo"], strict=True):
        kind, sources, _ = (ROOT / f"build/{name}.origin").read_text().splitlines()
        assert run("dpkg-deb", "--field", first / "build" / deb, "Modinfo-Build") == f"{kind}, {sources}\n"
        assert "Its functions are proved" in run("dpkg-deb", "--field", first / "build" / deb, "Description")
        package = deb.partition("_")[0]
        assert f"{name}: {kind}, {sources}\n" in (tree / f"usr/share/doc/{package}/origin").read_text()


def test_symbols(first: Path) -> None:
    exported = run("nm", "--defined-only", "--dynamic", "--format=posix", ROOT / "build/libmodinfo.so")
    described = run("dpkg-deb", "--info", first / "build" / DEBS[0], "symbols")
    assert sorted(re.findall("^ (.*)@Base ", described, re.MULTILINE)) == sorted(
        line.split()[0] for line in exported.splitlines()
    )


@pytest.mark.parametrize(
    ("built", "packed"), [("modinfo", "usr/bin/module-info"), ("libmodinfo.so", "usr/lib/*/libmodinfo.so.*.*.*")]
)
def test_what_the_loader_loads(tree: Path, tmp_path: Path, built: str, packed: str) -> None:
    [path] = tree.glob(packed)
    for file, made in (ROOT / "build" / built, "a"), (path, "b"):
        run("objcopy", "--output-target=binary", file, tmp_path / made)
    assert (tmp_path / "a").read_bytes() == (tmp_path / "b").read_bytes()


def test_lintian(first: Path) -> None:
    if not shutil.which("lintian"):
        pytest.skip("lintian isn't on the path")
    run("lintian", "--allow-root", "--fail-on", "error,warning", *(first / "build" / deb for deb in DEBS))


def test_the_archive_in_another_folder(first: Path, tree: Path, tmp_path: Path) -> None:
    words = ["--extract", "--gzip", "--strip-components=1", "--directory", tmp_path]
    run("tar", *words, "--file", first / "build" / TARBALL)
    run(ROOT / "examples/embed", tmp_path)
    document, output = ROOT / "examples/page.json", ROOT / "examples/page.out.json"
    for program in tmp_path / "bin/module-info", tree / "usr/bin/module-info":
        assert analyzed(program, document) == analyzed(ROOT / "build/modinfo", document)
    assert output.exists()


@pytest.mark.skipif(not (shutil.which("musl-gcc") and has_static()), reason="musl's compiler wasn't installed")
def test_the_archive_without_a_c_library(first: Path, tmp_path: Path) -> None:
    """The program has no loader and prints what the other one prints, and the library links with musl."""
    run("tar", "--extract", "--gzip", "--strip-components=1", "--file", first / "build" / STATIC, folder=tmp_path)
    program, document = tmp_path / "bin/module-info", ROOT / "examples/page.json"
    assert "INTERP" not in run("readelf", "--program-headers", "--wide", program)
    assert analyzed(program, document) == analyzed(ROOT / "build/modinfo", document)
    assert run(program, "--help") == run(ROOT / "build/modinfo", "--help")
    source, library = ROOT / "examples/embedding/analyze.c", tmp_path / "lib/libmodinfo.a"
    run("musl-gcc", "-static", f"-I{tmp_path}/include", "-o", tmp_path / "analyze", source, library)
    assert run(tmp_path / "analyze", document) == document.with_suffix(".out.json").read_text()
    origins = (tmp_path / "share/doc/modinfo/origin").read_text().splitlines()
    assert [line.partition(":")[0] for line in origins] == ["modinfo", "libmodinfo.a"]
