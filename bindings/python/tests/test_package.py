import re
import subprocess
import sys
from importlib.metadata import requires, version
from pathlib import Path

import pytest
from repository import ROOT

import modinfo

FOLDER = Path(modinfo.__file__).parent


def test_that_the_installed_package_is_the_one_that_is_tested() -> None:
    assert FOLDER.is_relative_to(sys.prefix)
    assert version("modinfo") == modinfo.__version__
    assert requires("modinfo") is None
    assert (FOLDER / "py.typed").exists() and (FOLDER / "libmodinfo.so").exists()


README = (ROOT / "bindings/python/README.md").read_text()


def printed(program: str, folder: Path) -> str:
    command = [sys.executable, "-I", "-c", program]
    run = subprocess.run(command, cwd=folder, capture_output=True, text=True, check=False)
    assert (run.stderr, run.returncode) == ("", 0)
    return run.stdout


PROGRAMS = re.findall(r"```python\n(.*?)```\n\nIt prints\n\n```\n(.*?)```\n", README, re.DOTALL)


@pytest.mark.parametrize("program, output", PROGRAMS, ids=range(len(PROGRAMS)))
def test_a_program_of_the_page(program: str, output: str, tmp_path: Path) -> None:
    (tmp_path / "a.ts").write_text('import "./b.ts";\n')
    (tmp_path / "b.ts").write_text("import {\n")
    assert printed(program, tmp_path).replace(str(tmp_path), "/home") == output


def test_that_the_page_begins_with_a_program() -> None:
    assert README.index("```python") < README.index("## ", 3) and len(PROGRAMS) == README.count("```python")
