"""The list of scripts in docs/BUILD.md: of each, the first usage and the first sentence of its help."""

import re
from collections.abc import Iterator

from sources import ROOT, BuildError

from formats.blocks import Block
from formats.schema import Format

PAGE = "docs/BUILD.md"
SCRIPTS = (
    "tools/setup",
    "tools/prove_modinfo",
    "tools/build_unchecked",
    "tools/build_library",
    "packaging/wasm/build",
    "tools/install",
    "tools/package",
    "tools/check",
    "tools/test",
    ".ci/mutations",
    "tools/mutations",
    ".ci/run",
    ".ci/lint",
    ".ci/check_layout",
    ".ci/check_docs",
    ".ci/check_facades",
    "tools/sibling",
    "tools/generate_formats",
    "crates/test_replay/fail_allocations",
    "examples/run",
    "examples/embed",
    "bindings/test",
)
# The help of a script in Python, which is its docstring, and of one for the shell, in the comments at its head.
HELP = re.compile(r'#![^\n]*\n(?:"""(.*?)"""|((?:#[^\n]*\n)+))', re.DOTALL)


def entry(path: str) -> str:
    found = HELP.match((ROOT / path).read_text())
    text = re.sub(r"(?m)^# ?", "", (found[1] or found[2]).strip()) if found else ""
    usage = re.search(r"^usage: (.*)", text, re.MULTILINE)
    if not usage:
        raise BuildError(f"{path} has no help with a usage")
    sentence = re.split(r"(?<=\.)\s", text)[0].replace("\n", " ")
    return f"- `{usage[1]}`: {sentence}"


def blocks(_document: Format, _info: Format, _report: Format) -> Iterator[Block]:
    yield PAGE, "scripts", [entry(path) for path in SCRIPTS]
