"""The sentence about what is proved, `claim` in docs/commands.json, on pages and in descriptions of packages."""

import json
import re
from collections.abc import Iterator
from pathlib import Path

from sources import ROOT, BuildError

from formats.blocks import Block
from formats.commands import COMMANDS
from formats.language import GENERATED
from formats.schema import Format

CLAIM: str = COMMANDS["claim"]
PAGES = ("README.md", "include/README.md", "bindings/python/README.md", "bindings/rust/README.md")
# The page of this crate is read without the repository.
WITHOUT_LINKS = "bindings/rust/README.md"
CARGO = "bindings/rust/Cargo.toml"
DESCRIPTION = re.compile(r'("?description"? ?[:=] )"([^".]*)[^"]*"')


def of_node(name: str) -> list[str]:
    """The files of this name in the packages for node."""
    return [str(path.relative_to(ROOT)) for path in sorted((ROOT / "bindings/node").glob(f"[!n]*/{name}"))]


def pages() -> Iterator[str]:
    yield from PAGES
    for path in of_node("README.md"):
        if f"{GENERATED}: claim" in text_of(path):
            yield path


def packages() -> Iterator[str]:
    yield CARGO
    for path in of_node("package.json"):
        if '"description": "Finds what a JavaScript or TypeScript module depends on. ' in text_of(path):
            yield path


def text_of(path: str) -> str:
    return (ROOT / path).read_text() if (ROOT / path).is_file() else ""


def with_links(path: str) -> list[str]:
    if path == WITHOUT_LINKS:
        return [f"{CLAIM} `docs/PROVED.md` in the repository has each promise, and what is only tested."]
    proved = "../" * len(Path(path).parents[1:]) + "docs/PROVED.md"
    return [f"{CLAIM} [What is proved]({proved}), [what is only tested]({proved}#only-tested)."]


def blocks(_document: Format, _info: Format, _report: Format) -> Iterator[Block]:
    for path in pages():
        yield path, "claim", with_links(path)


def described(path: str) -> str:
    """The text of a package's file, whose description is its first sentence and then the claim."""
    text = text_of(path)
    found = DESCRIPTION.search(text)
    if not found:
        raise BuildError(f"{path} has no description")
    return text[: found.start()] + f"{found[1]}{json.dumps(f'{found[2]}. {CLAIM}')}" + text[found.end() :]


def files() -> dict[str, str]:
    return {path: described(path) for path in packages()}
