"""What is installed from build/, which needs the program and the library there, as new as their sources."""

import json
import os
import re
import subprocess
import sys
from pathlib import Path

import pytest

ROOT = Path(__file__).resolve().parents[2]
VERSION = (ROOT / "VERSION").read_text().strip()
# The functions of the header, by their declarations without comments.
HEADER = re.sub(r"/\*.*?\*/", "", (ROOT / "include/modinfo.h").read_text(), flags=re.DOTALL)
FUNCTIONS = set(re.findall(r"^\w+ (modinfo_\w+)\(", HEADER, re.MULTILINE))
sys.dont_write_bytecode = True
sys.path.append(str(ROOT / "tools"))


def run(*words: str | Path, folder: Path = ROOT, status: int = 0, **environment: str) -> str:
    """What a command prints. It has to end with this status."""
    environment = {**os.environ, **environment}
    run = subprocess.run(
        words, cwd=folder, env=environment, stdout=subprocess.PIPE, stderr=subprocess.STDOUT, text=True
    )
    assert run.returncode == status, run.stdout
    return run.stdout


def analyzed(program: Path, document: Path) -> object:
    """What the program prints for a document, without anything in its environment."""
    with open(document) as text:
        run = subprocess.run([program, "analyze"], stdin=text, env={}, capture_output=True, check=True)
    return json.loads(run.stdout)


@pytest.fixture(scope="session")
def prefix(tmp_path_factory: pytest.TempPathFactory) -> Path:
    """A folder with the installed files."""
    prefix = tmp_path_factory.mktemp("installed") / "prefix"
    run(ROOT / "tools/install", prefix)
    return prefix


@pytest.fixture(scope="session")
def in_place_of_root(tmp_path_factory: pytest.TempPathFactory) -> Path:
    """A folder that stands for /, with the files installed in /opt/of/it and the libraries in lib/there."""
    root = tmp_path_factory.mktemp("installed") / "root"
    run(ROOT / "tools/install", "/opt/of/it", DESTDIR=str(root), LIBDIR="lib/there")
    return root
