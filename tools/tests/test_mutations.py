"""Tests .ci/mutations and tools/mutations: batches, verdicts, and when mutations are tried again."""

import pytest
from repository import Repository, copy_tracked

CYCLE = "#[cycle(both)]\n"
LIBRARY = f"fn five() {{ 5 }}\n{CYCLE}fn one() {{ 1 }}\n{CYCLE}fn two() {{ 2 }}\nfn six() {{ 6 }}\n"
LOWEST = "crates/lowest/out/rlib/lowest.rlib/lang"
# Prints what the test has for the functions that are changed, and notes these.
PROVER = """\
#!/bin/sh
changed=$(sed -n 's/^fn \\([a-z]*\\)() { 0 }/\\1/p' src/lib.rt | paste -s -d -)
echo "$changed" >> "$ROOM/checks"
cat "$ROOM/$changed"
"""


@pytest.fixture
def mutated(repository: Repository) -> Repository:
    """A library with a mutation of `five`, and the change of must-prove in `six`."""
    copy_tracked(repository, ".ci/mutations", "tools/mutations", "tools/help.bash")
    repository.write("crates/short/src/lib.rt", LIBRARY)
    repository.write(f"{LOWEST}/src/lib.rt", "pub fn five() -> u8 ensures { result ≡ 5 } ;\n")
    repository.put_program(repository.bin / "rattle", PROVER)
    mutate(repository, "must-prove", "six", 6)
    mutate(repository, "must-fail", "five", 5)
    return repository


def mutate(repository: Repository, folder: str, function: str, value: int) -> None:
    edit = f"# function: {function}\nfile: src/lib.rt\nold: {function}() {{ {value}\nnew: {function}() {{ 0\n"
    repository.write(f"crates/short/{folder}/{function}.edit", edit)


def tried(repository: Repository, outputs: dict[str, str], script: str = ".ci/mutations") -> tuple[int, str, list[str]]:
    """The status and the output of the script, and the functions that each check has changed."""
    checks = repository.room / "checks"
    checks.write_text("")
    for changed, output in outputs.items():
        (repository.room / changed).write_text(output.replace("fn ", "fn short::"))
    status, output, errors = repository.run(script, "--built", ".", XDG_CACHE_HOME=str(repository.room / "cache"))
    return status, output + errors, checks.read_text().split()


@pytest.mark.parametrize("script", [".ci/mutations", "tools/mutations"])
def test_a_refused_mutation(mutated: Repository, script: str) -> None:
    """It is tried again after a change of a statement below, and not after that of a proof."""
    mutate(mutated, "must-fail-rest", "five", 5)
    output = {"five-six": "fn five: not proved\nfn six: proved\nonly=2 proved=1\n"}
    refused = "short: 1 of 1 refused\n.ci/mutations: 1 of 1 mutations refused\n"
    assert tried(mutated, output, script) == (0, refused, ["five-six"])
    mutated.write(f"{LOWEST}/antt/proofs/five/Answers.antt", "")
    assert tried(mutated, output, script) == (0, f"short: refused in an earlier run\n{refused}", [])
    mutated.write(f"{LOWEST}/src/lib.rt", "pub fn five() -> u8 ensures { result ≡ 7 } ;\n")
    assert tried(mutated, output, script) == (0, refused, ["five-six"])


@pytest.mark.parametrize(
    ("output", "wanted", "printed"),
    [
        (
            "fn fn::five::closure: no proof: expected answers\nfn five: no proof: it calls `x`",
            0,
            "short: 1 of 1 refused",
        ),
        ("fn five: could not tell", 0, "five.edit: refused only by a limit"),
        (
            "fn five: not proved\nproofs/five/Answers.antt:1:2: error: `x` is not in scope",
            0,
            "five.edit: refused only since",
        ),
        ("fn five: proved", 1, "must-fail short/five.edit: NOT REFUSED"),
        ("fn five: no proof: it calls `x`, which is not proved", 1, "five.edit: NOT TRIED"),
        ("fn other: not proved", 1, "five.edit: NOT TRIED"),
        ("fn five: not proved\nfn six: not proved", 1, "must-prove isn't proved, so nothing is known"),
    ],
)
def test_a_verdict(mutated: Repository, output: str, wanted: int, printed: str) -> None:
    control = "" if "fn six" in output else "fn six: proved\n"
    status, all_printed, _ = tried(mutated, {"five-six": f"{output}\n{control}only=2 "})
    assert (status, printed in all_printed) == (wanted, True)


@pytest.mark.parametrize(
    ("output", "first"),
    [
        ("error[type]: no such name", ["five-six"]),
        ("fn five: not proved\nfn one: no proof: it calls `five`, which is not proved\nfn six: proved\nonly=3 ", []),
    ],
)
def test_batches(mutated: Repository, output: str, first: list[str]) -> None:
    """Two functions of one cycle are in two batches. A mutated function that calls a refused one is tried again, and a
    batch that the prover can't read is halved."""
    mutate(mutated, "must-fail", "one", 1)
    mutate(mutated, "must-fail", "two", 2)
    alone = {f"{name}-six": f"fn {name}: not proved\nfn six: proved\nonly=2 " for name in ("five", "one", "two")}
    status, _, checks = tried(mutated, {"five-one-six": output, **alone})
    assert (status, checks) == (0, ["five-one-six", *first, "one-six", "two-six"])
