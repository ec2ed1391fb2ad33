#!/usr/bin/env python3
"""Measures `modinfo files` and `modinfo analyze --source`, beside other parsers on the same files.

usage: bench/texts.py [--files N] [--parsers]
example: tools/setup bench && bench/texts.py --files 5000

  --files N  how many files of /usr/share/nodejs the parsers read, evenly spread over all; else all
  --parsers  measures the parsers alone, neither single files nor shapes

Prints instructions a byte that callgrind counts, and the peak memory, for single files and for hostile shapes
at a size and at twice that size; then wall time and processor time of one process that reads and parses all
files. The environment variable MODINFO names the program; else it is build/modinfo. Needs valgrind,
/usr/bin/time and the packages of `tools/setup bench`; what isn't installed is left out, and a line says so.
"""

import argparse
import json
import os
import re
import shutil
import subprocess
import sys
import tempfile
import time
from collections.abc import Callable
from pathlib import Path

ROOT = Path(__file__).resolve().parent.parent
sys.path.append(str(ROOT / "tools"))

from building import run_script  # noqa: E402

SCRIPT = "bench/texts.py"
PROGRAM = os.environ.get("MODINFO", str(ROOT / "build/modinfo"))
FOLDER = Path("/usr/share/nodejs")
SUFFIXES = {".js", ".mjs", ".cjs", ".jsx", ".ts", ".mts", ".cts", ".tsx"}
FILES = {
    "lodash.js": FOLDER / "lodash/lodash.js",
    "typescript.js": FOLDER / "typescript/lib/typescript.js",
    "lodash.min.js": FOLDER / "lodash/lodash.min.js",
    "d3.min.js": FOLDER / "d3/dist/d3.min.js",
    "lib.dom.d.ts": FOLDER / "typescript/lib/lib.dom.d.ts",
}
# An element as files of React have them, again and again.
ELEMENT = """export function Row{n}({{ name, items }}) {{
  return (
    <section className="row" onClick={{() => select(name)}}>
      <h2>Items of {{name}}</h2>
      {{items.length > 0 && <List items={{items.map((item) => <Item key={{item.id}} {{...item}} />)}} />}}
    </section>
  );
}}
"""
SHAPES: dict[str, Callable[[int], str]] = {
    "conditionals": lambda n: ("a?(b):c=>" * 100 + "d;\n") * n,
    "function types": lambda n: ("a?(b):(c=>d)=>" * 7 + "d;\n") * n,
    "assertions": lambda n: ("<T>(a=" * 100 + "d" + ")" * 100 + ";\n") * n,
    "async": lambda n: ("async<T>(a=" * 100 + "d" + ")" * 100 + ";\n") * n,
    "comparisons": lambda n: ("a<b<" * 80 + "c;\n") * n,
    "brackets": lambda n: ("[" * 100 + "]" * 100 + ";\n") * n,
    "templates": lambda n: ("`${" * 100 + "a" + "}`" * 100 + ";\n") * n,
    "else if": lambda n: "if (a) b;" + " else if (a) b;" * (100 * n),
    "comments": lambda n: "/**/" * (100 * n),
    "sum": lambda n: 'import("a"' + '+"b"' * (25 * n) + ");",
}
SHAPE_COUNTS = [20, 40]
PARSERS = ["acorn", "TypeScript", "Babel", "es-module-lexer"]
COLUMNS = f"{'':22}{'bytes':>11}{'files':>9}{'--source':>10}{'held':>7}"


def counted(words: list[str], text: bytes) -> int:
    """The instructions of a command with a text as its input."""
    valgrind = ["valgrind", "--tool=callgrind", "--callgrind-out-file=/dev/null"]
    run = subprocess.run([*valgrind, PROGRAM, *words], input=text, stdout=subprocess.DEVNULL, stderr=subprocess.PIPE)
    found = re.search(rb"Collected : (\d+)", run.stderr)
    if run.returncode != 0 or found is None:
        sys.exit(f"{SCRIPT}: {run.stderr.decode(errors='replace')}")
    return int(found[1])


def held(*paths: Path) -> int:
    """The most bytes that a run over files holds."""
    words = ["/usr/bin/time", "--format=%M", PROGRAM, "files", *map(str, paths)]
    run = subprocess.run(words, stdin=subprocess.DEVNULL, stdout=subprocess.DEVNULL, stderr=subprocess.PIPE, check=True)
    return int(run.stderr) * 1024


def print_costs(name: str, path: Path) -> None:
    """Prints the instructions a byte of both commands, and what `files` holds for each byte, with the text, beside
    what it holds without a file."""
    text = path.read_bytes()
    document = json.dumps({"specifier": path.as_uri(), "source": text.decode()}).encode()
    costs = [counted(["files", str(path)], b""), counted(["analyze", "--source"], document)]
    cells = "".join(f"{cost / len(text):10.1f}" for cost in costs)
    print(f"{name:22}{len(text):>11}{cells}{(held(path) - held()) / len(text):>7.1f}", flush=True)


def print_files(folder: Path) -> None:
    elements = folder / "elements.jsx"
    elements.write_text("".join(ELEMENT.format(n=n) for n in range(2000)))
    print(COLUMNS)
    for name, path in {**FILES, elements.name: elements}.items():
        if path.exists():
            print_costs(name, path)
        else:
            print(f"{name}: {path} not found")


def print_shapes(folder: Path) -> None:
    print("\n" + COLUMNS)
    for name, shape in SHAPES.items():
        for count in SHAPE_COUNTS:
            path = folder / "shape.ts"
            path.write_text(shape(count))
            print_costs(name, path)


def files_of(most: int | None) -> list[str]:
    """As many files as are asked for, evenly spread over all of the folder."""
    paths = (path for path in FOLDER.rglob("*") if path.suffix in SUFFIXES and path.is_file())
    everything = sorted({str(path.resolve()) for path in paths})
    count = min(most or len(everything), len(everything))
    return [everything[at * len(everything) // count] for at in range(count)]


def timed(words: list[str], text: str) -> tuple[float, float]:
    """The wall time and the processor time of a command, in seconds."""
    with tempfile.TemporaryFile("w+") as stdin:
        stdin.write(text)
        stdin.seek(0)
        start = time.monotonic()
        process = subprocess.Popen(words, stdin=stdin, stdout=subprocess.DEVNULL, stderr=subprocess.DEVNULL)
        _, status, use = os.wait4(process.pid, 0)
        process.returncode = os.waitstatus_to_exitcode(status)
        # Of modinfo and esbuild 1 is the status of a run over files of which some are refused.
        if process.returncode not in ((0,) if words[0] == "node" else (0, 1)):
            sys.exit(f"{SCRIPT}: {words[0]} ended with status {process.returncode}")
        return time.monotonic() - start, use.ru_utime + use.ru_stime


def esbuild_words(paths: list[str], folder: Path) -> list[str]:
    options = ["--bundle=false", f"--outdir={folder}/out", "--outbase=/", "--log-limit=1", "--log-level=silent"]
    return ["env", "GOMAXPROCS=1", "esbuild", *options, "--entry-names=[dir]/[name]-[hash]", *paths]


def print_parsers(folder: Path, paths: list[str]) -> None:
    listed = "".join(f"{path}\n" for path in paths)
    size = sum(os.path.getsize(path) for path in paths)
    commands = {"modinfo files": [PROGRAM, "files"]}
    if shutil.which("node"):
        commands |= {name: ["node", str(ROOT / "bench/parsers.mjs"), name] for name in PARSERS}
    if shutil.which("esbuild"):
        commands["esbuild, also printing"] = esbuild_words(paths, folder)
    print(f"\n{len(paths)} files, {size / 1e6:.1f} MB, reading included; seconds, and times those of modinfo")
    print(f"{'':22}{'wall':>9}{'':>8}{'processor':>11}{'':>8}")
    own: tuple[float, float] | None = None
    for name, words in commands.items():
        wall, processor = timed(words, listed)
        own = own or (wall, processor)
        print(f"{name:22}{wall:9.2f}{wall / own[0]:8.1f}{processor:11.2f}{processor / own[1]:8.1f}", flush=True)


def main() -> int:
    words = argparse.ArgumentParser(prog=SCRIPT, usage="%(prog)s [--files N] [--parsers]")
    words.add_argument("--files", type=int)
    words.add_argument("--parsers", action="store_true")
    options = words.parse_args()
    with tempfile.TemporaryDirectory() as name:
        folder = Path(name)
        if not options.parsers:
            print_files(folder)
            print_shapes(folder)
        print_parsers(folder, files_of(options.files))
    return 0


sys.exit(run_script(SCRIPT, main))
