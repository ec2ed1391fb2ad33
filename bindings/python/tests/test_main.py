"""`python -m modinfo`, against the test cases of docs/ROWS.md that run the program."""

import re
import subprocess
import sys
from pathlib import Path

import pytest
from repository import CASES, EXAMPLES, ROOT, WORDS, check_cases, examples, program_cases

import modinfo


def run(*words: str, input: bytes = b"") -> tuple[int, bytes, str]:
    done = subprocess.run([sys.executable, "-m", "modinfo", *words], input=input, capture_output=True, check=False)
    return done.returncode, done.stdout, done.stderr.decode()


@pytest.mark.parametrize(
    "command, document, expected", list(examples())[::4], ids=lambda part: getattr(part, "name", part)
)
def test_an_example(command: str, document: Path, expected: Path) -> None:
    assert run(command, input=document.read_bytes()) == (0, expected.read_bytes(), "")


@pytest.mark.parametrize(
    "case", [case for case in program_cases(CASES) if case[3] == 1][::20], ids=lambda case: case[0]
)
def test_a_refused_case(case: tuple[str, str, bytes, int, bytes]) -> None:
    status, output, errors = run(*WORDS[case[1]], input=case[2])
    assert (status, output) == (1, b"")
    assert errors.startswith(f"modinfo: {case[4].decode()} ") and errors.count("\n") == 1


@pytest.mark.parametrize("case", list(check_cases(CASES))[::20], ids=lambda case: case[0])
def test_a_check(case: tuple[str, str, bytes, bytes]) -> None:
    _, command, document, report = case
    assert run("check", *WORDS[command], input=document) == (
        0 if b'"valid"' in report else 1,
        report,
        "",
    )


@pytest.mark.parametrize("jobs", ["1", "2"])
def test_lines(jobs: str) -> None:
    document, answer = ((EXAMPLES / f"side-effect-import{ending}").read_bytes() for ending in (".json", ".out.json"))
    line = b" ".join(document.splitlines())
    wanted = b'{"answer":%b}\n{"fault":"Json"}\n' % answer.strip()
    assert run("analyze", "--lines", "--jobs", jobs, input=line + b"\n{\n") == (0, wanted, "")


def test_files(tmp_path: Path) -> None:
    """The lines of docs/FORMATS.md."""
    page = (ROOT / "docs/FORMATS.md").read_text()
    line = re.search('{"specifier":"file:///home/b.ts",.*}', page)
    assert line is not None
    (tmp_path / "a.ts").write_text('import "./b.ts";')
    (tmp_path / "b.ts").write_text("import {")
    info = (EXAMPLES / "side-effect-import.out.json").read_text().strip()
    wanted = [f'{{"specifier":"file://{tmp_path}/a.ts","info":{info}}}', line[0].replace("/home", str(tmp_path))]
    status, output, errors = run("files", str(tmp_path / "a.ts"), str(tmp_path / "b.ts"))
    assert (status, output.decode().splitlines(), errors) == (1, wanted, "")
    assert run("files", "--jobs", "2", str(tmp_path / "a.ts")) == (0, f"{wanted[0]}\n".encode(), "")


@pytest.mark.parametrize("words, status", [([], 0), (["--strict"], 1)])
def test_warnings(words: list[str], status: int) -> None:
    document = (EXAMPLES / "side-effect-import.json").read_bytes().replace(b'"program":', b'"child":[],"program":')
    line = b" ".join(document.splitlines())
    for more in [], ["--lines"]:
        code, output, _ = run("check", *words, *more, input=line)
        assert (code, b'"warnings"' in output) == (status, True)


@pytest.mark.parametrize("words", [[], ["analyse"], ["analyze", "x"], ["files"], ["check", "reach", "--source"]])
def test_words_that_are_no_usage(words: list[str]) -> None:
    status, output, errors = run(*words)
    assert (status, output) == (2, b"")
    assert errors.startswith("usage: python -m modinfo ")


def test_the_version_and_the_help() -> None:
    assert run("--version") == (0, f"modinfo {modinfo.__version__}\n".encode(), "")
    status, output, _ = run("--help")
    assert status == 0 and b"the keys that a root reaches" in output


def test_a_reader_that_ends(tmp_path: Path) -> None:
    (tmp_path / "lines").write_bytes(b"{\n" * 20_000)
    words = f"{sys.executable} -m modinfo analyze --lines < {tmp_path}/lines | head -n 1; exit ${{PIPESTATUS[0]}}"
    done = subprocess.run(["bash", "-c", words], capture_output=True, check=False)
    assert (done.returncode, done.stdout, done.stderr) == (1, b'{"fault":"Json"}\n', b"")


@pytest.mark.parametrize("closed", ["<&-", ">&-"])
@pytest.mark.parametrize("words", ["convert", "check convert", "convert --lines", "check --lines"])
def test_a_closed_input_or_output(words: str, closed: str) -> None:
    command = f"exec {sys.executable} -m modinfo {words} {closed}"
    done = subprocess.run(["bash", "-c", command], input=b"{}", capture_output=True, check=False)
    wanted = b"modinfo: the standard input or output is closed\n"
    assert (done.returncode, done.stdout, done.stderr) == (1, b"", wanted)
