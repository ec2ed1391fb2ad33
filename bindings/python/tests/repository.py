"""What the tests take from the repository."""

import json
import sys
from pathlib import Path
from typing import Any

import modinfo

ROOT = Path(__file__).resolve().parents[3]
EXAMPLES = ROOT / "examples"
CASES = ROOT / "crates/test_replay/data"


def output_of(source: Path) -> Path:
    """The expected output of a source of the examples."""
    return source.with_name(source.name.split(".")[0] + ".out.json")


# Sources of the examples, and what comes out of them.
SOURCES = [
    (path, json.loads(output_of(path).read_text()))
    for path in sorted(EXAMPLES.iterdir())
    if path.suffix in {".ts", ".tsx", ".js", ".mjs"} and output_of(path).exists()
]

sys.path.append(str(EXAMPLES / "embedding"))

from replay import COMMANDS, blocks, check_cases, examples, program_cases  # noqa: E402

# The words of each command.
WORDS = {name: words for words, name in COMMANDS.items()}

__all__ = [
    "CASES",
    "EXAMPLES",
    "ROOT",
    "SOURCES",
    "WORDS",
    "answer",
    "blocks",
    "check_cases",
    "examples",
    "output_of",
    "program_cases",
]


def answer(command: modinfo.Command, document: bytes) -> Any:
    """The answer to a document of a command, of which some functions take the parts."""
    return modinfo._answer(command, document)
