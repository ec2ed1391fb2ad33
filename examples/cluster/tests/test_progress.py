"""The line on a terminal, and the list of faults."""

import io

import pytest
from progress import MOST_LISTED, Progress
from work import Module


@pytest.mark.parametrize("is_terminal", [True, False])
def test_a_terminal_and_another_stream(is_terminal: bool, monkeypatch: pytest.MonkeyPatch) -> None:
    stream = io.StringIO()
    monkeypatch.setattr(stream, "isatty", lambda: is_terminal)
    progress = Progress(stream)
    progress.add([Module(f"a{at}\x1b", None, "Syntax", []) for at in range(MOST_LISTED + 1400)], [])
    progress.show(workers=4)
    shown = stream.getvalue()
    assert ("1,500 analyzed, 0 known, 1,500 faults, " in shown and shown.endswith(", 4 workers")) == is_terminal
    progress.end()
    lines = stream.getvalue()[len(shown) :].removesuffix("\n").split("\n")
    assert lines[0] == "\r\x1b[K" * is_terminal + "a0\\x1b: Syntax" and len(lines) == MOST_LISTED + 1
    assert lines[-1] == ".. and 1,400 more, where the fault isn't null in the table"
