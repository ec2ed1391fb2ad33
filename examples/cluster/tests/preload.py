"""Loaded by each worker of a test. Some texts end the worker that analyzes them, or stop it."""

import os
import signal
import time
from pathlib import Path
from typing import Any

import modinfo

DEATHS = Path(os.environ["DEATHS"])
# Dask executes this file twice.
analyze = getattr(modinfo, "original", modinfo.module_info)


def module_info(text: bytes, *arguments: Any) -> modinfo.ModuleInfo:
    # Ends two workers, and after that is analyzed as any other.
    if b"kills twice" in text and (not DEATHS.exists() or DEATHS.stat().st_size < 2):
        os.write(os.open(DEATHS, os.O_WRONLY | os.O_APPEND | os.O_CREAT), b".")
        os.kill(os.getpid(), signal.SIGKILL)
    while b"hangs" in text and not DEATHS.with_name("go").exists():
        time.sleep(0.05)
    return analyze(text, *arguments)


modinfo.original, modinfo.module_info = analyze, module_info  # type: ignore[attr-defined]
