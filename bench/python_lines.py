#!/usr/bin/env python3
"""Measures how much faster modinfo.analyze_lines is with more threads, for documents of several sizes.

usage: PYTHON bench/python_lines.py
example: build/cluster/bin/python bench/python_lines.py

PYTHON is that of a venv with the wheel, as `tools/setup cluster` makes one. For each size the same lines
are analyzed with each number of jobs in turn, three times. Prints the least seconds of each on the clock and,
after a slash, of the processors.
"""

import json
import sys
import time
from pathlib import Path

sys.path.append(str(Path(__file__).resolve().parent.parent / "tools"))

from building import print_help  # noqa: E402

# Also where the package is missing.
if print_help():
    sys.exit(0)

import modinfo  # noqa: E402

JOBS = (1, 2, 4)
IMPORTS = (8, 40, 400, 4_000)
TOTAL = 60_000_000
TIMES = 3


def document(imports: int) -> bytes:
    """The document of a module of imports."""
    source, body = "", []
    for number in range(imports):
        start = len(source)
        source += f'import "./{number}.js";\n'
        end = len(source) - 1
        literal = {"value": f"./{number}.js", "range": [start + 7, end - 1]}
        body.append({"kind": "ImportDecl", "range": [start, end], "src": literal})
    program = {"range": [0, len(source)], "body": body}
    whole = {"specifier": "file:///a.js", "mediaType": "JavaScript", "source": source, "program": program}
    return json.dumps(whole, separators=(",", ":")).encode() + b"\n"


def seconds(lines: list[bytes], jobs: int) -> tuple[float, float]:
    clock, used = time.perf_counter(), time.process_time()
    for _ in modinfo.analyze_lines(lines, jobs):
        pass
    return time.perf_counter() - clock, time.process_time() - used


def main() -> None:
    print("  bytes   lines" + "".join(f"{jobs:8d} jobs" for jobs in JOBS))
    for imports in IMPORTS:
        line = document(imports)
        assert next(modinfo.analyze_lines([line])).startswith(b'{"answer":{"dependencies":')
        lines = [line] * (TOTAL // len(line))
        took = [[seconds(lines, jobs) for jobs in JOBS] for _ in range(TIMES)]
        least = "".join(f"  {min(column)[0]:5.2f}/{min(column)[1]:.2f}" for column in zip(*took, strict=True))
        print(f"{len(line):7d} {len(lines):7d}{least}")


main()
