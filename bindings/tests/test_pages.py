"""Runs the programs that pages show for JavaScript, C, C++, Python, Rust and the shell.

Each block in one of these languages is a whole program, and the next block is its output. Of README.md one section is
read so, and the beginning. A program runs in an empty folder, with what `tools/install` and the packages for its
language install. It has to print that output, and end with status 0. Where what a language needs isn't installed, its
programs are skipped. Needs the program and the library in build/. The first program of docs/PARSERS.md runs without
proofs, in a repository as that page has it.
"""

import json
import os
import re
import shutil
import subprocess
import textwrap
from collections.abc import Callable
from pathlib import Path

import pytest

ROOT = Path(__file__).resolve().parents[2]
SECTION = "### From JavaScript, C, Python and Rust\n"
PAGES = ["README.md", "include/README.md", "docs/ESTREE.md"]
ACORN = Path("/usr/share/nodejs/acorn")
FENCE = re.compile(r"^```(\w*)\n(.*?)^```$", re.DOTALL | re.MULTILINE)
MANIFEST = f"""\
[package]
name = "program"
version = "0.1.0"
edition = "2021"

[dependencies]
modinfo = {{ path = "{ROOT}/bindings/rust" }}
"""


def run(*command: str | Path, folder: Path, **environment: str) -> str:
    """What a command prints on both outputs."""
    environment = {**os.environ, **environment}
    done = subprocess.run(
        command, cwd=folder, env=environment, stdout=subprocess.PIPE, stderr=subprocess.STDOUT, text=True
    )
    assert done.returncode == 0, done.stdout
    return done.stdout


def need(*programs: str) -> None:
    for program in programs:
        if not shutil.which(program):
            pytest.skip(f"{program} isn't on the path")


class Machine:
    """A prefix with what tools/install puts there, and folders for the packages."""

    def __init__(self, room: Path) -> None:
        self.room = room
        self.prefix = room / "prefix"
        run(ROOT / "tools/install", self.prefix, folder=room)
        self.environment = {
            "PATH": f"{self.prefix}/bin:{os.environ['PATH']}",
            "LD_LIBRARY_PATH": f"{self.prefix}/lib",
            "PKG_CONFIG_PATH": f"{self.prefix}/lib/pkgconfig",
            "MODINFO": f"{self.prefix}/bin/module-info",
        }

    def run(self, *command: str | Path, folder: Path) -> str:
        return run(*command, folder=folder, **self.environment)

    def run_sh(self, source: Path) -> str:
        """Runs it beside a program ./modinfo, as a clone has it."""
        if "acorn" in source.read_text():
            need("node")
            if not ACORN.exists():
                pytest.skip(f"{ACORN} isn't installed")
        (source.parent / "modinfo").symlink_to(self.environment["MODINFO"])
        return self.run("sh", "-eu", source, folder=source.parent)

    def run_c(self, source: Path) -> str:
        need("cc", "pkg-config")
        words = self.run("pkg-config", "--cflags", "--libs", "modinfo", folder=source.parent).split()
        self.run("cc", "-std=c11", "-Wall", "-Wextra", "-Werror", source, "-o", "program", *words, folder=source.parent)
        return self.run("./program", folder=source.parent)

    def run_cpp(self, source: Path) -> str:
        need("c++", "pkg-config")
        words = self.run("pkg-config", "--cflags", "--libs", "modinfo", folder=source.parent).split()
        warnings = ["-std=c++17", "-Wall", "-Wextra", "-Werror"]
        self.run("c++", *warnings, source, "-o", "program", *words, folder=source.parent)
        return self.run("./program", folder=source.parent)

    def run_python(self, source: Path) -> str:
        python = self.room / "venv/bin/python"
        if not python.exists():
            self.install_wheel(python)
        return run(python, "-I", source, folder=source.parent)

    def install_wheel(self, python: Path) -> None:
        if subprocess.run([ROOT / "tools/setup", "python"], check=False).returncode != 0:
            pytest.skip("what makes a wheel can't be installed")
        run(ROOT / "bindings/python/make_wheel", self.room, folder=self.room, MODINFO_LIB_DIR=f"{self.prefix}/lib")
        run("/usr/bin/python3", "-m", "venv", python.parents[1], folder=self.room)
        run(python, "-m", "pip", "install", "--quiet", "--no-index", *self.room.glob("modinfo-*.whl"), folder=self.room)

    def run_rust(self, source: Path) -> str:
        need("cargo")
        (source.parent / "src").mkdir()
        source.rename(source.parent / "src/main.rs")
        (source.parent / "Cargo.toml").write_text(MANIFEST)
        (source.parent / ".cargo").mkdir()
        shutil.copy(ROOT / "bindings/rust/debian.toml", source.parent / ".cargo/config.toml")
        return run("cargo", "run", "--offline", "--quiet", folder=source.parent, MODINFO_LIB_DIR=f"{self.prefix}/lib")

    def run_javascript(self, source: Path) -> str:
        need("node", "npm")
        if not list(self.room.glob("modinfo-*.tgz")):
            run(ROOT / "bindings/node/pack", "--program", self.environment["MODINFO"], self.room, folder=self.room)
        (source.parent / "package.json").write_text("{}")
        install = ["npm", "install", "--silent", "--offline", "--no-audit", "--no-fund", "--legacy-peer-deps"]
        run(*install, *self.room.glob("modinfo-*.tgz"), folder=source.parent)
        return self.run("node", source, folder=source.parent)


LANGUAGES: dict[str, tuple[str, Callable[[Machine, Path], str]]] = {
    "sh": ("program.sh", Machine.run_sh),
    "c": ("program.c", Machine.run_c),
    "cpp": ("program.cc", Machine.run_cpp),
    "python": ("program.py", Machine.run_python),
    "py": ("program.py", Machine.run_python),
    "rust": ("program.rs", Machine.run_rust),
    "rs": ("program.rs", Machine.run_rust),
    "javascript": ("program.mjs", Machine.run_javascript),
    "js": ("program.mjs", Machine.run_javascript),
}


def section_of(text: str) -> str:
    """The text from the section's heading to the next heading, or all where there is no such section."""
    rest = text.partition(SECTION)[2] or text
    in_block = False
    for mark in re.finditer(r"^```|^#{1,3} ", rest, re.MULTILINE):
        if mark[0] == "```":
            in_block = not in_block
        elif not in_block and rest != text:
            return rest[: mark.start()]
    return rest


def programs(page: str) -> list[tuple[str, str, str]]:
    """The language, source and output of each program of a page."""
    blocks = [*FENCE.findall(section_of((ROOT / page).read_text())), ("", "")]
    shown = [(*block, following[1]) for block, following in zip(blocks, blocks[1:]) if block[0] in LANGUAGES]
    assert shown, f"{page} has no program"
    return shown


@pytest.fixture(scope="module")
def machine(tmp_path_factory: pytest.TempPathFactory) -> Machine:
    return Machine(tmp_path_factory.mktemp("machine"))


@pytest.mark.parametrize(
    ("language", "source", "output"),
    [pytest.param(*program, id=f"{page}: {program[0]}") for page in PAGES for program in programs(page)],
)
def test_program(machine: Machine, tmp_path: Path, language: str, source: str, output: str) -> None:
    name, method = LANGUAGES[language]
    (tmp_path / name).write_text(source)
    assert method(machine, tmp_path / name) == output


def test_the_first_blocks(machine: Machine, tmp_path: Path) -> None:
    """README.md begins with a source and its JSON, and then has the command for a file, with its output."""
    page = (ROOT / "README.md").read_text()
    (_, source), (_, wanted), *_ = FENCE.findall(page)
    (tmp_path / "page.ts").write_text(source)
    (tmp_path / "modinfo").symlink_to(machine.environment["MODINFO"])
    found = json.loads(machine.run("./modinfo", "files", "page.ts", folder=tmp_path))
    assert found["info"]["dependencies"] == json.loads(wanted)["dependencies"]
    [(command, output)] = re.findall(r"^    (printf .*)\n\nprints .*\n\n    (\{.*\})$", page, re.MULTILINE)
    printed = machine.run("sh", "-eu", "-c", command, folder=tmp_path)
    assert printed == output.replace("file:///home/you", tmp_path.as_uri()) + "\n"


def test_a_repository_of_a_reader_s_own(tmp_path: Path) -> None:
    """The crates that the page's command names, its line for crates.txt, and its program."""
    page = (ROOT / "docs/PARSERS.md").read_text()
    [(program, output)] = re.findall(
        r"(    //! Prints.*?\n    }\n)\n`rt try` in its folder prints `(.*?)`", page, re.DOTALL
    )
    [command] = re.findall("`(python3 tools/sources.py below .*?)`", page)
    [line] = re.findall(r"^    (my_tool: .*)", page, re.MULTILINE)
    lines = run(*command.split(), folder=ROOT)
    (tmp_path / "crates.txt").write_text(f"{lines}{line}\n")
    for name in re.findall(r"^\w+", lines, re.MULTILINE):
        shutil.copytree(ROOT / "crates" / name, tmp_path / "crates" / name, ignore=shutil.ignore_patterns("out"))
    source = tmp_path / "crates/my_tool/src/main.rt"
    source.parent.mkdir(parents=True)
    source.write_text(textwrap.dedent(program))
    done = subprocess.run(["rt", "try"], cwd=source.parents[1], capture_output=True, text=True)
    assert (done.stdout, done.returncode) == (f"{output}\n", 0), done.stderr
