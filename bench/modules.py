#!/usr/bin/env python3
"""Measures what a module costs by its size: its parser, its document, its analysis and its output.

usage: bench/modules.py [--files N] [--sample N]
example: tools/setup bench && ./modinfo --prove && bench/modules.py --files 500

  --files N   files of Debian's node packages, evenly spread over all in the order of their paths; else all
  --sample N  how many modules of each class of sizes are measured; else 1000

Makes a document of ESTree of each file by TypeScript's parser (bindings/node/tests/equipment). Prints a table
of means, with a row for each class of sizes and one for the mix. Needs valgrind, /usr/bin/time, Python 3.11.

  instructions  of `modinfo analyze --estree --lines` by callgrind, less those for no lines
  analysis      its processor time, the fastest of five runs
  MB held       the most memory at once, for all lines
  parser        processor time in a warm process: two passes over the files less one
"""

import argparse
import json
import re
import resource
import subprocess
import sys
from dataclasses import dataclass
from pathlib import Path
from urllib.parse import unquote, urlsplit

ROOT = Path(__file__).resolve().parent.parent
sys.path.append(str(ROOT / "tools"))

from building import run_script  # noqa: E402

MODINFO = ROOT / "build/modinfo"
ANALYZE = [str(MODINFO), "analyze", "--estree", "--lines"]
ADAPTER = ["node", str(ROOT / "bindings/node/tests/equipment/print_documents.mjs")]
NODE_FILES = Path("/usr/share/nodejs")
ENDINGS = {".ts", ".tsx", ".mts", ".cts", ".js", ".jsx", ".mjs", ".cjs"}
# Files of a new process, and of one that is warm.
FEW, WARM = 250, 2000
# Sources up to so many bytes.
CLASSES = [1_000, 4_000, 16_000, 64_000, 256_000, 1 << 40]


@dataclass
class Module:
    path: str
    source: int
    document: bytes


@dataclass
class Costs:
    """Means for each module. The parser's time is that of the processor."""

    modules: int
    source: float
    document: float
    answer: float
    instructions: float
    instructions_per_byte: float
    analysis_ms: float
    megabytes: float
    parser_ms: float


def choose_files(most: int | None) -> list[str]:
    every = sorted(
        str(path)
        for path in NODE_FILES.rglob("*")
        if path.suffix in ENDINGS and not path.is_symlink() and path.is_file()
    )
    most = min(most or len(every), len(every))
    return [every[at * len(every) // most] for at in range(most)]


def modules_of(paths: list[str]) -> list[Module]:
    """The modules that have a document, as the adapter writes it."""
    named = "".join(f"{path}\n" for path in paths).encode()
    written = subprocess.run(ADAPTER, input=named, stdout=subprocess.PIPE, stderr=subprocess.DEVNULL).stdout
    return [module_of(line) for line in written.splitlines(keepends=True)]


def module_of(line: bytes) -> Module:
    document = json.loads(line)
    path = unquote(urlsplit(document["specifier"]).path)
    return Module(path, len(document["source"].encode()), line)


def spread(modules: list[Module], most: int) -> list[Module]:
    count = min(most, len(modules))
    return [modules[at * len(modules) // count] for at in range(count)]


def processor_seconds(command: list[str], data: bytes) -> float:
    """What a run of the command takes, the processes that it starts among it."""
    before = resource.getrusage(resource.RUSAGE_CHILDREN)
    subprocess.run(command, input=data, stdout=subprocess.DEVNULL, stderr=subprocess.DEVNULL)
    after = resource.getrusage(resource.RUSAGE_CHILDREN)
    return after.ru_utime + after.ru_stime - before.ru_utime - before.ru_stime


def instructions(data: bytes) -> int:
    valgrind = ["valgrind", "--tool=callgrind", "--callgrind-out-file=/dev/null", *ANALYZE]
    run = subprocess.run(valgrind, input=data, stdout=subprocess.DEVNULL, stderr=subprocess.PIPE, check=True)
    counted = re.search(rb"Collected : (\d+)", run.stderr)
    assert counted
    return int(counted[1])


def megabytes(command: list[str], data: bytes) -> float:
    """The most memory that a run held."""
    timed = ["/usr/bin/time", "--quiet", "--format=%M", *command]
    run = subprocess.run(timed, input=data, stdout=subprocess.DEVNULL, stderr=subprocess.PIPE)
    return int(run.stderr.split()[-1]) / 1000


def names_of(modules: list[Module]) -> bytes:
    return "".join(f"{module.path}\n" for module in modules).encode()


def parser_milliseconds(modules: list[Module]) -> float:
    """What the adapter takes for each of these files, once it is warm: what twice as many take more."""
    once, twice = (processor_seconds(ADAPTER, names_of(modules) * times) for times in [1, 2])
    return (twice - once) * 1000 / len(modules)


def costs_of(modules: list[Module], sample: int) -> Costs:
    """The costs of modules, by a sample of them."""
    chosen = spread(modules, sample)
    data = b"".join(module.document for module in chosen)
    answers = subprocess.run(ANALYZE, input=data, stdout=subprocess.PIPE, check=True).stdout
    count, counted = len(chosen), instructions(data) - instructions(b"")
    return Costs(
        modules=len(modules),
        source=sum(module.source for module in modules) / len(modules),
        document=sum(len(module.document) for module in modules) / len(modules),
        answer=len(answers) / count,
        instructions=counted / count,
        instructions_per_byte=counted / len(data),
        analysis_ms=min(processor_seconds(ANALYZE, data) for _ in range(5)) * 1000 / count,
        megabytes=megabytes(ANALYZE, data),
        parser_ms=parser_milliseconds(chosen),
    )


def row(name: str, costs: Costs) -> str:
    cells = [
        f"{costs.modules:,}",
        f"{costs.source:,.0f}",
        f"{costs.document:,.0f}",
        f"{costs.answer:,.0f}",
        f"{costs.instructions / 1e6:.3f}",
        f"{costs.instructions_per_byte:.0f}",
        f"{costs.analysis_ms:.3f}",
        f"{costs.megabytes:.1f}",
        f"{costs.parser_ms:.1f}",
    ]
    return f"| {name} | {' | '.join(cells)} |"


HEADING = (
    "| source, bytes | modules | source | document | output | instructions, millions | of them for a byte "
    "| analysis, ms | MB held | parser, ms |\n|---|---|---|---|---|---|---|---|---|---|"
)


def print_process(modules: list[Module]) -> None:
    """What a process of the adapter costs beside the files that it reads."""
    few = spread(modules, FEW)
    took = min(processor_seconds(ADAPTER, names_of(few)) for _ in range(3))
    more = took - parser_milliseconds(spread(modules, WARM)) * len(few) / 1000
    print(f"{len(few)} files in a new process of the adapter: {took:.2f} s, {more:.2f} s more than once it is warm")
    print(f"it holds {megabytes(ADAPTER, names_of(spread(modules, WARM))):.0f} MB at most\n\n{HEADING}", flush=True)


def main() -> int:
    words = argparse.ArgumentParser(prog="bench/modules.py")
    words.add_argument("--files", type=int)
    words.add_argument("--sample", type=int, default=1000)
    options = words.parse_args()
    modules = modules_of(choose_files(options.files))
    print_process(modules)
    above = 0
    for most in CLASSES:
        of_class = [module for module in modules if above <= module.source < most]
        if of_class:
            name = f"{above:,} to {most:,}" if most < CLASSES[-1] else f"from {above:,}"
            print(row(name, costs_of(of_class, options.sample)), flush=True)
        above = most
    print(row("the mix", costs_of(modules, len(modules))))
    return 0


if __name__ == "__main__":
    sys.exit(run_script("bench/modules.py", main))
