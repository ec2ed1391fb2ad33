"""Tests tools/generate_formats in a copy of what it reads and writes: which files are stale, and errors."""

import pytest
from repository import Repository, copy_tracked

from formats.promises import TABLES
from formats.scripts import SCRIPTS

COMMAND = ["python3", "-B", "tools/generate_formats"]
PYTHON, RUST = "bindings/python/src/modinfo/information.py", "bindings/rust/src/module_info.rs"
NAMES = "crates/modinfo_document/src/names.rt"
WALK = "crates/deno_graph_dep/src/walk.rt"
JSON = "crates/deno_graph_info/specs/Json"


@pytest.fixture
def formats(repository: Repository) -> Repository:
    node = [f"bindings/node/{name}" for name in ("modinfo", "modinfo-graph", "modinfo-report")]
    sources = ["README.md", *node]
    sources += [".gitattributes", "bindings/python/src", "bindings/python/README.md", "bindings/rust"]
    names = {path.partition("/")[0] for paths in TABLES.values() for path in paths}
    whole = [f"crates/{name}" for name in ("deno_graph_info", "deno_graph_json", "modinfo_document")]
    crates = [*(f"crates/{name}/src" for name in names), *whole]
    copy_tracked(repository, "docs", "include", "packaging", "tools", "VERSION", *sources, *crates, *SCRIPTS)
    return repository


def stale(formats: Repository) -> list[str]:
    status, _, errors = formats.run(*COMMAND, "--check")
    lines = errors.splitlines()
    assert status == (1 if lines else 0)
    assert all(line.endswith(" is stale: run tools/generate_formats") for line in lines)
    return [line.split()[0] for line in lines]


def test_a_file_that_is_missing_or_changed(formats: Repository) -> None:
    (formats.folder / PYTHON).unlink()
    text = (formats.folder / RUST).read_text()
    formats.write(RUST, text.replace("usize", "u32"))
    assert stale(formats) == [PYTHON, RUST]
    assert formats.run(*COMMAND)[0] == 0
    assert (formats.folder / RUST).read_text() == text


def test_the_layout_of_names_in_rattle_does_not_matter(formats: Repository) -> None:
    text = (formats.folder / NAMES).read_text()
    formats.write(NAMES, text.replace('"kind", ', '"kind",\n    '))
    assert stale(formats) == []
    formats.write(NAMES, text.replace('"mediaType"', '"media"'))
    assert stale(formats) == [NAMES]


def test_promises_of_public_functions(formats: Repository) -> None:
    text = (formats.folder / WALK).read_text()
    formats.write(WALK, text.replace("/// Returns the next node", "/// Returns the last node"))
    assert stale(formats) == ["docs/PROVED.md"]
    formats.write(WALK, text.replace("ensures rises {", "ensures grows {"))
    assert stale(formats) == ["docs/PROVED.md"]
    function = "/// Returns one.\n{} one() -> u8\n    ensures {{ result ≡ 1 }}\n{{\n    1\n}}\n"
    formats.write(WALK, text + function.format("fn"))
    assert stale(formats) == []
    formats.write(WALK, text + function.format("pub fn"))
    assert stale(formats) == ["docs/PROVED.md"]


def test_definitions_readers_and_proofs_in_rattle(formats: Repository) -> None:
    path, other = f"{JSON}/Dependency.antt", f"{JSON}/Other.antt"
    text = (formats.folder / path).read_text()
    formats.write(path, text.replace("    else", "  else"))
    assert stale(formats) == []
    formats.write(path, text.replace('"dynamic"', '"called"'))
    formats.write(other, text)
    formats.write(f"{JSON}/ByHand.antt", "-- By hand.\n")
    assert stale(formats) == [path, other]
    assert formats.run(*COMMAND)[0] == 0
    assert (formats.folder / path).read_text() == text
    assert not (formats.folder / other).exists()


def test_errors(formats: Repository) -> None:
    assert formats.run(*COMMAND, "--all")[0] == 2
    formats.write("bindings/rust/src/fault.rs", "")
    error = "tools/generate_formats: bindings/rust/src/fault.rs has 0 blocks of faults, and must have one\n"
    assert formats.run(*COMMAND) == (1, "", error)
