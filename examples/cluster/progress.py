"""How far a run is: counts, the list of faults, and a line on a terminal."""

import time
from typing import TextIO

from work import Module

CLEAR = "\r\x1b[K"
MOST_LISTED = 100


class Progress:
    def __init__(self, stream: TextIO) -> None:
        self.faults = self._analyzed = self._known = 0
        self._listed: list[str] = []
        self._stream, self._is_shown = stream, stream.isatty()
        self._began = time.monotonic()

    def add(self, analyzed: list[Module], known: list[Module]) -> None:
        self._analyzed += len(analyzed)
        self._known += len(known)
        faults = [each for each in analyzed + known if each.fault is not None]
        self._listed += [shown(f"{each.specifier}: {each.fault}") for each in faults[: MOST_LISTED - len(self._listed)]]
        self.faults += len(faults)

    def counts(self) -> str:
        return f"{self._analyzed:,} analyzed, {self._known:,} known, {self.faults:,} faults"

    def show(self, workers: int) -> None:
        rate = (self._analyzed + self._known) / max(time.monotonic() - self._began, 0.001)
        self.write(f"{CLEAR}{self.counts()}, {rate:,.0f} a second, {workers} workers")

    def write(self, text: str) -> None:
        """Writes a text, if the stream is a terminal."""
        if self._is_shown:
            self._stream.write(text)
            self._stream.flush()

    def end(self) -> None:
        """Clears the line, and lists the first faults."""
        self.write(CLEAR)
        more = self.faults - len(self._listed)
        lines = [*self._listed, *[f".. and {more:,} more, where the fault isn't null in the table"] * (more > 0)]
        self._stream.writelines(f"{line}\n" for line in lines)


def shown(text: str) -> str:
    """The text with control characters and undecodable bytes escaped, for a terminal."""
    return "".join(character if character.isprintable() else ascii(character)[1:-1] for character in text)
