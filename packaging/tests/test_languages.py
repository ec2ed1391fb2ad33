"""Compiles programs that call the library for C from other languages, and a job that reads its answers by a JSON
library, and runs each. The library is in build/, or in the folder that MODINFO_LIB_DIR names. Where what a language
needs isn't installed, its program is skipped."""

import os
import shutil
import subprocess
from pathlib import Path

import pytest
from installed import ROOT

LIBRARIES = (ROOT / os.environ.get("MODINFO_LIB_DIR", "build")).resolve()
EXAMPLES = ROOT / "examples"
EMBEDDING = EXAMPLES / "embedding"
INFO = (
    '{"dependencies":[{"kind":"import","sideEffect":true,"specifier":"./é.js","specifierRange":[[0,7],[0,15]],'
    '"type":"static"}]}\n'
)
# More than the room that the programs begin with.
MANY = 'import "./é.js";' * 100
REPORT = '{"fault":"Syntax","pointer":"/source","at":{"line":0,"column":8,"offset":8},'


def run(*words: str | Path, text: str = "", **environment: str) -> tuple[int, str, str]:
    """The status, and what a command prints on each output."""
    environment = {**os.environ, "LD_LIBRARY_PATH": str(LIBRARIES), **environment}
    done = subprocess.run(words, input=text.encode(), capture_output=True, env=environment, cwd=ROOT)
    return done.returncode, done.stdout.decode(), done.stderr.decode()


def need(*programs: str) -> None:
    for program in programs:
        if not shutil.which(program):
            pytest.skip(f"{program} isn't on the path")


def pkg_config(folder: Path) -> str:
    """A folder with the file for pkg-config of the library as it was built."""
    text = "Name: modinfo\nDescription: modinfo\nVersion: 0.1.0\n"
    (folder / "modinfo.pc").write_text(f"{text}Cflags: -I{ROOT}/include\nLibs: -L{LIBRARIES} -lmodinfo\n")
    return str(folder)


def prints_information(*words: str | Path, **environment: str) -> None:
    """Whether a program prints the information on a text, or the report on it."""
    assert run(*words, "file:///a.js", text='import "./é.js";', **environment) == (0, INFO, "")
    assert run(*words, "file:///a.js", **environment) == (0, '{"script":true}\n', "")
    status, output, errors = run(*words, "file:///a.js", text=MANY, **environment)
    assert (status, output.count("./é.js"), errors) == (0, 100, "")
    status, output, errors = run(*words, "file:///a.js", text="let a = ;", **environment)
    assert (status, output[: len(REPORT)], errors) == (1, REPORT, "")


def test_go(tmp_path: Path) -> None:
    need("go", "pkg-config", "cc")
    program = tmp_path / "analyze"
    environment = {"CGO_ENABLED": "1", "GOCACHE": str(tmp_path / "cache"), "GOFLAGS": "-mod=mod", "GO111MODULE": "off"}
    environment["PKG_CONFIG_PATH"] = pkg_config(tmp_path)
    assert run("go", "build", "-o", program, EMBEDDING / "analyze.go", **environment) == (0, "", "")
    prints_information(program)


def test_csharp(tmp_path: Path) -> None:
    need("mcs", "mono")
    program = tmp_path / "analyze.exe"
    assert run("mcs", "-warnaserror", f"-out:{program}", EMBEDDING / "Analyze.cs") == (0, "", "")
    prints_information("mono", program)


def sources() -> list[str]:
    """The sources among the examples, by their names from the repository."""
    return sorted(str(path.relative_to(ROOT)) for path in EXAMPLES.glob("*.*s") if path.suffix != ".json")


@pytest.fixture(scope="module")
def job(tmp_path_factory: pytest.TempPathFactory) -> Path:
    need("cc", "pkg-config")
    folder = tmp_path_factory.mktemp("job")
    found, jansson, _ = run("pkg-config", "--cflags", "--libs", "jansson")
    if found != 0:
        pytest.skip("Jansson isn't installed")
    words = ["-std=c11", "-Wall", "-Wextra", "-Werror", "-g", "-fsanitize=undefined", f"-I{ROOT}/include"]
    words += ["-o", str(folder / "job"), str(EXAMPLES / "job/job.c"), str(LIBRARIES / "libmodinfo.a"), *jansson.split()]
    assert run("cc", *words) == (0, "", "")
    return folder / "job"


def test_the_job_over_the_examples(job: Path) -> None:
    assert run(job, *sources()) == (0, (EXAMPLES / "job/expected").read_text(), "")


def test_the_job_over_other_files(job: Path, tmp_path: Path) -> None:
    """Specifiers of each kind, arguments of each, names to encode, and files with a fault."""
    texts = {
        "a.ts": 'import "node:fs"; import "fs/promises"; import "@a/b/c"; import "@a/b"; import "./x";',
        "b c#%é.mts": 'import(a); require("@a/b"); import("#x"); import type { T } from "z//y";',
        "c.js": "import(`${a}`); import(`${a}${b}`); require(`./${a}`);",
        "d.js": "let a = ;",
        "e.js": "import(`a/${b}`);",
    }
    for name, text in texts.items():
        (tmp_path / name).write_text(text)
    (tmp_path / "f.js").mkdir()
    names = [str(tmp_path / name) for name in [*texts, "f.js", "g.js"]]
    status, output, errors = run(job, *reversed(names))
    table = f"3 @a/b\n2 fs\n1 z\n\n{names[1]}\n{names[2]}\n"
    assert (status, output) == (1, table)
    assert [line.partition(": ")[0] for line in errors.splitlines()] == [names[6], names[5], names[3]]
    assert '"Syntax"' in errors
