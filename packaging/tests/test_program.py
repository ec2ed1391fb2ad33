"""Tests the program with a reader of its output that ends, with files that never end, names without a URL, a terminal
as input, and two documents where one belongs. The program is the one that MODINFO names, else that in build/."""

import json
import os
import resource
import subprocess
from pathlib import Path

import pytest
from installed import ROOT

PROGRAM = str(ROOT / os.environ.get("MODINFO", "build/modinfo"))
# More lines than a pipe holds.
LINES = b"{}\n" * 100_000
SECONDS = 600


@pytest.mark.parametrize("words", [["analyze", "--lines"], ["check", "--lines"]], ids=" ".join)
def test_reader_that_ends_after_a_line(words: list[str], tmp_path: Path) -> None:
    (tmp_path / "documents").write_bytes(LINES)
    with (
        open(tmp_path / "documents", "rb") as documents,
        subprocess.Popen([PROGRAM, *words], stdin=documents, stdout=subprocess.PIPE, stderr=subprocess.PIPE) as process,
    ):
        assert process.stdout and process.stderr
        assert process.stdout.readline().endswith(b"}\n")
        process.stdout.close()
        assert (process.stderr.read(), process.wait(SECONDS)) == (b"", 1)


@pytest.mark.parametrize("words", [["--help"], ["--version"], ["files", "a.ts"]], ids=" ".join)
def test_output_without_a_reader(words: list[str], tmp_path: Path) -> None:
    reader, writer = os.pipe()
    os.close(reader)
    with os.fdopen(writer, "wb") as output:
        ended = subprocess.run(
            [PROGRAM, *words], cwd=tmp_path, stdout=output, stderr=subprocess.PIPE, timeout=SECONDS, check=False
        )
    assert (ended.returncode, ended.stderr) == (1, b"")


def test_full_disk() -> None:
    with open("/dev/full", "wb") as output:
        ended = subprocess.run(
            [PROGRAM, "--version"], stdout=output, stderr=subprocess.PIPE, timeout=SECONDS, check=False
        )
    assert (ended.returncode, ended.stderr) == (1, b"modinfo: Output\n")


def test_files_that_the_system_makes_up(tmp_path: Path) -> None:
    """A read of /proc/kmsg waits for the next message of the kernel. A file that is read lets none in after it."""
    (tmp_path / "log.js").symlink_to("/proc/kmsg")
    (tmp_path / "a.js").write_text("f();")
    names = ["log.js", "/proc/version", "/proc/self/cwd/a.js", "a.js", "log.js", "/sys/devices/system/cpu/online"]
    ended = subprocess.run([PROGRAM, "files", *names], cwd=tmp_path, capture_output=True, timeout=SECONDS, check=False)
    found = [json.loads(line) for line in ended.stdout.splitlines()]
    refused = ["in /proc or /sys"] * 2
    assert [each.get("fault", {}).get("message") for each in found] == [*refused, None, None, *refused]
    assert (ended.returncode, ended.stderr) == (1, b"")


def files(names: list[str], folder: Path | bytes, memory: int = resource.RLIM_INFINITY) -> tuple[list[str], str, int]:
    """What `files` prints for each name, what it prints on the error output, and the status."""

    def limit() -> None:
        resource.setrlimit(resource.RLIMIT_AS, (memory, resource.RLIM_INFINITY))

    ended = subprocess.run(
        [PROGRAM, "files", *names], cwd=folder, capture_output=True, preexec_fn=limit, timeout=SECONDS, check=False
    )
    return ended.stdout.decode().splitlines(), ended.stderr.decode(), ended.returncode


def test_a_file_that_runs_out_of_memory(tmp_path: Path) -> None:
    """It has the fault alone, whatever the memory: the files before and after it have their lines."""
    (tmp_path / "a.js").write_text('import "./b.js";')
    (tmp_path / "many.js").write_text('import"";' * 12_000)
    names, step = ["a.js", "many.js", "a.js"], 1 << 19
    whole = files(names, tmp_path)
    assert whole[1:] == ("", 0)
    fault = '/many.js","fault":{"name":"OutOfMemory","message":"an allocation failed"}}'
    least = next(size for size in range(step, 1 << 30, step) if files(["a.js"], tmp_path, size)[2] == 0)
    count = 0
    while (run := files(names, tmp_path, least + (count + 2) * step)) != whole:
        lines, errors, status = run
        assert (lines[0], lines[2], errors, status) == (whole[0][0], whole[0][2], "", 1)
        assert lines[1].endswith(fault)
        count += 1
    assert count > 0


@pytest.mark.parametrize("line, held", [("a;", 8), ("a;// c", 64), ("await a;", 40)])
def test_statements_that_no_rule_reads(line: str, held: int, tmp_path: Path) -> None:
    """Their nodes and comments take less memory than so many times the text."""
    text = f"{line}\n" * 100_000
    (tmp_path / "a.mts").write_text(text)
    assert files(["a.mts"], tmp_path, (16 << 20) + held * len(text))[1:] == ("", 0)


def test_a_step_up_from_a_link(tmp_path: Path) -> None:
    """It takes away the link, as in the URL, so that the URL is that of the file that is read."""
    (tmp_path / "real/sub").mkdir(parents=True)
    (tmp_path / "link").symlink_to("real/sub")
    (tmp_path / "real/a.js").write_text('import "./real.js";')
    (tmp_path / "a.js").write_text('import "./here.js";')
    lines, errors, status = files(["link/../a.js", "a.js", "./real/../link/../a.js"], tmp_path)
    assert len(set(lines)) == 1 and "./here.js" in lines[0] and (errors, status) == ("", 0)


def test_a_folder_whose_path_is_not_known(tmp_path: Path) -> None:
    """A relative name has no URL there, and an absolute one does."""
    folder = os.fsencode(tmp_path) + b"/\xff"
    os.mkdir(folder)
    (tmp_path / "a.js").write_text("f();")
    lines, errors, status = files(["../a.js", str(tmp_path / "a.js")], folder)
    message = "the path of the current folder isn't known, or isn't UTF-8"
    assert [json.loads(line).get("fault") for line in lines] == [{"name": "Input", "message": message}, None]
    assert [json.loads(line)["specifier"] for line in lines] == ["../a.js", (tmp_path / "a.js").as_uri()]
    assert (errors, status) == ("", 1)


def test_names_that_are_not_utf_8(tmp_path: Path) -> None:
    """They are printed in place of a URL, the same from the arguments and from the input. Other words are wrong."""
    (tmp_path / "a.js").write_text("f();")
    fault = {"specifier": "inv\ufffd.ts", "fault": {"name": "Input", "message": "the name isn't UTF-8"}}
    names = [b"inv\xff.ts", b"a.js"]
    given = subprocess.run([PROGRAM, "files", *names], cwd=tmp_path, capture_output=True, timeout=SECONDS, check=False)
    listed = subprocess.run(
        [PROGRAM, "files", "--null"], cwd=tmp_path, input=b"\0".join(names), capture_output=True, timeout=SECONDS
    )
    found = [json.loads(line) for line in given.stdout.splitlines()]
    assert (found[0], found[1]["specifier"]) == (fault, (tmp_path / "a.js").as_uri())
    assert (given.returncode, given.stdout, given.stderr) == (listed.returncode, listed.stdout, listed.stderr)
    for words in (["files", b"\xff", "--null"], ["files", "-a", b"\xff"], ["filesx", b"\xff"], [b"\xff", "files"]):
        ended = subprocess.run([PROGRAM, *words], input=b"", capture_output=True, timeout=SECONDS, check=False)
        assert (ended.returncode, ended.stdout, ended.stderr[:15]) == (2, b"", b"modinfo: usage:")


@pytest.mark.parametrize("words", [[], ["--null"]], ids=str)
def test_a_terminal_as_input(tmp_path: Path, words: list[str]) -> None:
    """What is waited for is printed before the first name is read."""
    (tmp_path / "a.js").write_text("f();")
    ours, its = os.openpty()
    with subprocess.Popen(
        [PROGRAM, "files", *words], cwd=tmp_path, stdin=its, stdout=subprocess.PIPE, stderr=subprocess.PIPE
    ) as process:
        assert process.stdout and process.stderr
        assert process.stderr.readline().startswith(b"modinfo: waiting for the names of files")
        os.write(ours, b"a.js\0\x04" if words else b"a.js\n\x04")
        # A name that isn't at the beginning of a line needs a second end of the input.
        os.write(ours, b"\x04")
        assert json.loads(process.stdout.read())["specifier"] == (tmp_path / "a.js").as_uri()
        assert (process.stderr.read(), process.wait(SECONDS)) == (b"", 0)
    os.close(ours)
    os.close(its)


def test_names_in_arguments_need_no_terminal(tmp_path: Path) -> None:
    ours, its = os.openpty()
    for name, status in (("a.js", 1), (b"\xff", 1)):
        ended = subprocess.run([PROGRAM, "files", name], cwd=tmp_path, stdin=its, capture_output=True, timeout=SECONDS)
        assert (ended.returncode, ended.stderr) == (status, b"")
    os.close(ours)
    os.close(its)


def test_a_folder(tmp_path: Path) -> None:
    """The fault says what reads a folder."""
    [line], _, status = files(["."], tmp_path)
    message = json.loads(line)["fault"]["message"]
    assert "git ls-files" in message and "package for node" in message and status == 1


def test_second_document_on_a_line_of_its_own() -> None:
    ended = subprocess.run([PROGRAM, "check"], input=b"{}\n{}\n", capture_output=True, timeout=SECONDS, check=False)
    report = json.loads(ended.stdout)
    assert (ended.returncode, report["fault"], report["at"]) == (1, "Json", {"line": 1, "column": 0, "offset": 3})
    assert report["expected"].startswith("the end of the document")
