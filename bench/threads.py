#!/usr/bin/env python3
"""Measures calls of the package for Python in one thread and in eight, and how many run at once.

usage: PYTHON bench/threads.py [DOCUMENT]
example: build/cluster/bin/python bench/threads.py

PYTHON is that of a venv with the wheel, as `tools/setup cluster` makes one. Each thread makes the same
calls on the document's bytes, by the library alone and with the result read as JSON, which needs Python's
lock. Prints for each the seconds that one thread takes for its calls, those of eight threads together, and
the processors that they used.
"""

import sys
import threading
import time
from collections.abc import Callable
from pathlib import Path

sys.path.append(str(Path(__file__).resolve().parent.parent / "tools"))

from building import print_help  # noqa: E402

# Also where the package is missing.
if print_help():
    sys.exit(0)

import modinfo  # noqa: E402

THREADS = 8
SECONDS = 2.0
DEFAULT = Path(__file__).parents[1] / "examples/test-internal-module-require.json"


def took(call: Callable[[], object], calls: int, threads: int) -> tuple[float, float]:
    """Seconds on the clock and of the processors, while each thread makes the calls."""
    together = threading.Barrier(threads + 1)

    def run() -> None:
        together.wait()
        for _ in range(calls):
            call()

    started = [threading.Thread(target=run) for _ in range(threads)]
    for thread in started:
        thread.start()
    together.wait()
    clock, used = time.perf_counter(), time.process_time()
    for thread in started:
        thread.join()
    return time.perf_counter() - clock, time.process_time() - used


def main() -> None:
    document = Path(sys.argv[1] if len(sys.argv) > 1 else DEFAULT).read_bytes()
    forms: dict[str, Callable[[], object]] = {
        "library": lambda: modinfo._library.room().call(modinfo._library.COMMANDS["analyze"].answer.one, document),
        "analyze": lambda: modinfo.analyze(document),
    }
    print(f"{len(document)} bytes")
    for name, call in forms.items():
        calls = max(1, int(SECONDS * 100 / took(call, 100, 1)[0]))
        alone, _ = took(call, calls, 1)
        together, used = took(call, calls, THREADS)
        print(
            f"{name}: {calls} calls in one thread {alone:.2f} s; in each of {THREADS} threads {together:.2f} s, "
            f"{used / together:.1f} processors"
        )


main()
