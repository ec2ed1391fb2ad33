"""Tests how the program and the library are built: the order of the crates, failures and interrupts."""

import os
import shutil
import signal

import pytest
from repository import CRATES, Repository, copy_tracked, steps

MADE = "modinfo: the proved program is made: build/modinfo\n"
SLEEP = "echo $$ > $ROOM/process; exec sleep 60"


def expect_failure(repository: Repository, errors: str, *words: str) -> None:
    assert repository.run(*(words or ("./modinfo", "--prove"))) == (1, "", errors)
    assert not (repository.folder / "build/unfinished").exists()
    assert not repository.is_proved()


def test_order(repository: Repository) -> None:
    order = steps("modinfo", "lowest", "long", "short", "apart", "modinfo", "modinfo_cli")
    assert repository.run("./modinfo", "--prove") == (0, "", order + MADE)
    assert not (repository.folder / "build/unfinished").exists()
    assert repository.is_proved()


def test_crates_are_built_side_by_side(repository: Repository) -> None:
    for crate, other in ("long", "short"), ("short", "long"):
        repository.ask(crate, f"touch $ROOM/{crate}; until [[ -e $ROOM/{other} ]]; do sleep 0.1; done")
    repository.prove(PROCESSORS="4")


@pytest.mark.parametrize(
    ("processors", "with_two_jobs"),
    [("1", set()), ("2", {"modinfo", "modinfo_cli"}), ("4", {"lowest", "modinfo", "modinfo_cli"})],
)
def test_jobs(repository: Repository, processors: str, with_two_jobs: set[str]) -> None:
    repository.prove(PROCESSORS=processors)
    jobs = dict(line.split() for line in repository.runs())
    assert {crate for crate in jobs if jobs[crate] == "2"} >= with_two_jobs
    assert processors != "1" or set(jobs.values()) == {"1"}


def test_only_what_has_changed_is_built(repository: Repository) -> None:
    repository.prove()
    repository.runs()
    repository.change("short/src/lib.rt")
    repository.prove()
    assert repository.runs() == ["short 1", "modinfo 1", "modinfo_cli 1"]
    shutil.rmtree(repository.folder / "build/crates/long.rlib")
    (repository.folder / "build/modinfo").unlink()
    repository.prove()
    assert repository.runs() == ["long 1", "modinfo_cli 1"]


def test_an_edit_meanwhile(repository: Repository) -> None:
    repository.ask("modinfo_cli", "echo '// more' >> ../short/src/lib.rt")
    repository.prove()
    assert not repository.is_proved()
    repository.ask("modinfo_cli", "")
    repository.ask("short", "[[ -e $ROOM/edited ]] || echo '// more' >> src/lib.rt; touch $ROOM/edited")
    repository.prove()
    assert not (repository.folder / "build/crates/short.stamp").exists()
    assert not (repository.folder / "build/crates/modinfo.stamp").exists()
    repository.prove()
    assert repository.is_proved()


def test_a_program_with_another_output(repository: Repository) -> None:
    repository.write("crates/modinfo_cli/stdout", "another output")
    assert repository.run("./modinfo", "--prove")[0] == 1
    assert not repository.is_proved()


def test_a_program_that_is_not_linked(repository: Repository) -> None:
    repository.prove()
    repository.change("modinfo_cli/src/main.rt")
    repository.put_program(repository.bin / "rattle-link", "#!/bin/sh\necho no such file >&2\nexit 1\n")
    step = "modinfo: building crate 6 of 6, modinfo_cli\n"
    errors = f"{step}modinfo: the program isn't linked: no such file\n"
    assert repository.run("./modinfo", "--prove") == (1, "", errors)


@pytest.mark.parametrize(
    ("script", "printed", "status"),
    [("echo 'error: no proof'; exit 3", "error: no proof\n", 3), ("kill -9 $$", "", 137)],
)
def test_a_build_that_fails(repository: Repository, script: str, printed: str, status: int) -> None:
    repository.ask("long", script)
    end = f"modinfo: crate long isn't built: the prover ended with status {status}\n"
    expect_failure(repository, steps("modinfo", "lowest", "long") + printed + end)
    repository.ask("long", "")
    repository.prove()
    assert repository.is_proved()


def test_crates_that_cannot_be_built(repository: Repository) -> None:
    repository.write("crates.txt", CRATES.replace("lowest: ", "lowest: long"))
    names = "long, lowest, modinfo, modinfo_cli, short"
    circle = f"modinfo: crates.txt has crates that need one another, among {names}\n"
    expect_failure(repository, steps("modinfo", "apart") + circle)
    repository.write("crates.txt", CRATES)
    shutil.rmtree(repository.folder / "crates/short")
    expect_failure(repository, "modinfo: crates.txt names short, and there is no folder crates/short\n")


def test_a_failure_beside_another_crate(repository: Repository) -> None:
    repository.ask("apart", SLEEP)
    repository.ask("lowest", "until [[ -s $ROOM/process ]]; do sleep 0.1; done; exit 1")
    assert repository.run("./modinfo", "--prove", PROCESSORS="4")[0] == 1
    assert repository.ends(repository.wait_for("process"))


@pytest.mark.parametrize("number", [signal.SIGHUP, signal.SIGINT, signal.SIGTERM, signal.SIGKILL])
def test_signals(repository: Repository, number: signal.Signals) -> None:
    repository.prove()
    repository.change("apart/src/lib.rt")
    repository.ask("modinfo", SLEEP)
    with repository.start("./modinfo", "--prove") as started:
        process = repository.wait_for("process")
        started.send_signal(number)
        started.wait()
    if number == signal.SIGKILL:
        os.kill(int(process), signal.SIGKILL)
    assert repository.ends(process)
    assert not repository.is_proved()
    repository.ask("modinfo", "")
    repository.runs()
    repository.prove()
    assert repository.runs() == ["modinfo 1", "modinfo_cli 1"]


def test_library(repository: Repository) -> None:
    script = "tools/build_library"
    last = f"{script}: building crate 6 of 6, modinfo_c\n"
    assert repository.run(script) == (0, "", steps(script, "lowest", "long", "short", "apart", "modinfo", "modinfo_c"))
    assert repository.run(script) == (0, "", "")
    repository.change("modinfo_c/src/lib.rt")
    assert repository.run(script) == (0, "", last)
    (repository.folder / "build/libmodinfo.so").unlink()
    assert repository.run(script) == (0, "", last)
    assert {path.name for path in (repository.folder / "build").glob("lib*")} >= {"libmodinfo.a", "libmodinfo.so"}
    source = (repository.folder / "crates/modinfo_c/src/lib.rt").read_text()
    assert (repository.folder / "build/libmodinfo.bc").read_text() == source
    repository.ask("short", "exit 1")
    repository.change("short/src/lib.rt")
    assert repository.run(script)[0] == 1
    assert repository.run(script, "a")[0] == 2


def test_the_second_of_two_builds_waits(repository: Repository) -> None:
    repository.ask("lowest", "echo yes > $ROOM/begun; until [[ -e $ROOM/go ]]; do sleep 0.1; done")
    with repository.start("tools/build_library") as first:
        repository.wait_for("begun")
        with repository.start("tools/build_library") as second:
            assert second.stderr is not None
            assert second.stderr.readline() == "tools/build_library: waiting for another build\n"
            (repository.room / "go").touch()
            assert (first.wait(), second.wait(), second.stderr.read()) == (0, 0, "")
    assert len(repository.runs()) == 6


def test_another_processor(repository: Repository) -> None:
    """The crates below are built once for both processors."""
    target = ["--target", "aarch64"]
    repository.run("tools/build_library")
    step = "tools/build_library: building crate 6 of 6, modinfo_c\n"
    assert repository.run("tools/build_library", *target) == (0, "", step)
    for file in "crates/libmodinfo_c.aarch64-unknown-linux-gnu.a", "aarch64/libmodinfo.a", "aarch64/libmodinfo.so":
        assert (repository.folder / "build" / file).exists()
    assert repository.run("tools/build_library", *target) == (0, "", "")
    made = MADE.replace("build/", "build/aarch64/")
    step = "modinfo: building crate 6 of 6, modinfo_cli\n"
    assert repository.run("tools/prove_modinfo", *target) == (0, "", step + made)
    assert repository.run("build/aarch64/modinfo", "analyze") == (7, "ran: analyze\n", "modinfo: Tree\n")
    assert not repository.is_proved()


def test_stamps_of_the_library(repository: Repository) -> None:
    """What isn't proved, by its stamp, is made anew."""
    command = "tools/build_library"
    stamp = repository.folder / "build/libmodinfo.a.origin"
    repository.run(command)
    assert stamp.read_text().startswith("proved\nsources ")
    assert (repository.folder / "build/libmodinfo.so.0").resolve().name == "libmodinfo.so"
    stamp.write_text(stamp.read_text().replace("proved", "unchecked", 1))
    assert "modinfo_c" in repository.run(command)[2]
    assert stamp.read_text().startswith("proved\nsources ")


@pytest.mark.parametrize("kept", [False, True])
def test_what_rt_ci_has_proved(repository: Repository, kept: bool) -> None:
    """.ci/keep_proved leaves what ./modinfo --prove and tools/build_library do. It proves the library's own crate, and
    the program's where rt ci has kept its proof from an earlier run: then there is no object file."""
    repository.prove()
    crates = repository.folder / "crates"
    for crate in "modinfo", "short", "long", "apart", "lowest":
        (crates / crate / "out").mkdir()
        (crates / crate / "out/rlib").symlink_to(repository.folder / "build/crates")
    (crates / "modinfo_cli/out").mkdir()
    (repository.folder / "build/modinfo").rename(crates / "modinfo_cli/out/modinfo_cli")
    if not kept:
        repository.write("crates/modinfo_cli/out/modinfo_cli.o", "an object file")
    repository.write("crates/test_replay/out/test_replay", "a program")
    copy_tracked(repository, ".ci/keep_proved")
    repository.runs()
    assert repository.run(".ci/keep_proved", ".") == (0, "", "")
    assert (repository.folder / "build/test_replay").read_text() == "a program"
    assert repository.runs() == ["modinfo_cli 1"] * kept + ["modinfo_c 1", "modinfo_c 1"]
    assert repository.is_proved()
    for words in [], ["--target", "aarch64"]:
        assert repository.run("tools/build_library", *words) == (0, "", "")
