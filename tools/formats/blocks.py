"""Blocks of generated lines in files that are written by hand."""

import re

from sources import ROOT, BuildError

from formats.language import GENERATED

# A path, a name and the lines of a block. It is between two comments with the name; in Rattle, which `rt fmt` lays out,
# after the code that is the name.
Block = tuple[str, str, list[str]]
END_IN_RATTLE = r";|\n +ObjectKind::|\n    }"


def with_block(text: str, block: Block) -> str:
    """The text of a file with a block's lines in the place of those that it has."""
    path, name, lines = block
    is_rattle = path.endswith(".rt")
    start = re.escape(name) if is_rattle else rf"{GENERATED}: {name}\b.*"
    end = END_IN_RATTLE if is_rattle else rf"\n.*end of {name}\b"
    found = [*re.finditer(f"(?:{start})((?s:.*?))(?:{end})", text)]
    if len(found) != 1:
        raise BuildError(f"{path} has {len(found)} blocks of {name}, and must have one")
    old, new = found[0][1], "".join(f"\n{line}" for line in lines)
    if is_rattle and without_layout(old) == without_layout(new):
        return text
    return text[: found[0].start(1)] + new + text[found[0].end(1) :]


def without_layout(code: str) -> str:
    """Rattle's code without what `rt fmt` changes: white space, braces, and commas and semicolons."""
    return re.sub(r"[\s\\{},;]", "", code)


def current(path: str, texts: dict[str, str]) -> str:
    """The text of a file, with the blocks that it has got already."""
    return texts.get(path) or (ROOT / path).read_text()
