"""Many documents, one a line, and work in threads."""

from collections import deque
from collections.abc import Callable, Iterable, Iterator
from concurrent.futures import Future, ThreadPoolExecutor
from typing import TypeVar

from ._buffers import Buffer, contiguous, is_buffer
from ._errors import Fault
from ._library import Call, room

# The line that is printed for an answer.
Frame = Callable[[bytes], bytes]
Item = TypeVar("Item")
Result = TypeVar("Result")

# What a thread is handed at once, so that few hand-overs are needed.
BATCH_LINES = 64
BATCH_BYTES = 1 << 20
# Items under way for each thread: one is worked on, another waits.
AHEAD = 2


def answer_lines(call: Call, frame: Frame, lines: Iterable[Buffer], jobs: int) -> Iterator[bytes]:
    if jobs == 1:
        return (_answer(call, frame, line) for line in _checked(lines))
    answers = in_threads(lambda batch: _answer_batch(call, frame, batch), _batches(_checked(lines)), jobs)
    return (line for batch in answers for line in batch)


def in_threads(function: Callable[[Item], Result], items: Iterable[Item], jobs: int) -> Iterator[Result]:
    """The result for each item, in order. Where reading an item fails, the results before come first, and then the
    error. Raises ValueError where `jobs` isn't above zero."""
    if jobs < 1:
        raise ValueError(f"jobs must be above zero, not {jobs}")
    return map(function, items) if jobs == 1 else _in_threads(function, iter(items), jobs)


def _in_threads(function: Callable[[Item], Result], items: Iterator[Item], jobs: int) -> Iterator[Result]:
    under_way: deque[Future[Result]] = deque()
    failure: Exception | None = None
    with ThreadPoolExecutor(jobs) as threads:
        try:
            while failure is None:
                try:
                    item = next(items)
                except StopIteration:
                    break
                except Exception as error:
                    failure = error
                    break
                under_way.append(threads.submit(function, item))
                if len(under_way) == AHEAD * jobs:
                    yield under_way.popleft().result()
            while under_way:
                yield under_way.popleft().result()
        finally:
            for future in under_way:
                future.cancel()
    if failure is not None:
        raise failure


def _checked(lines: Iterable[Buffer]) -> Iterator[Buffer]:
    for line in lines:
        if not is_buffer(line):
            raise TypeError(f"a line must be bytes, not {type(line).__name__}")
        yield line


def _batches(lines: Iterator[Buffer]) -> Iterator[list[Buffer]]:
    """The lines, in lists of a few. Where reading fails, what was read before comes first, and then the error."""
    batch: list[Buffer] = []
    size = 0
    try:
        for line in lines:
            batch.append(line)
            size += memoryview(line).nbytes
            if len(batch) == BATCH_LINES or size >= BATCH_BYTES:
                yield batch
                batch, size = [], 0
    except Exception:
        if batch:
            yield batch
        raise
    if batch:
        yield batch


def _answer(call: Call, frame: Frame, line: Buffer) -> bytes:
    try:
        return frame(room().call(call.one, contiguous(line)))
    except Fault as fault:
        name = fault.name
    except MemoryError:
        name = "OutOfMemory"
    return b'{"fault":"%b"}\n' % name.encode()


def _answer_batch(call: Call, frame: Frame, batch: list[Buffer]) -> list[bytes]:
    """The answers to a batch: by one call, or where that can't be by a call for each line."""
    return _answer_at_once(call, batch) or [_answer(call, frame, line) for line in batch]


def _answer_at_once(call: Call, batch: list[Buffer]) -> list[bytes] | None:
    """The answers to a batch. None where a document takes several lines, and where an allocation fails."""
    try:
        lines = [bytes(line).removesuffix(b"\n") for line in batch]
        if any(b"\n" in line for line in lines):
            return None
        return room().call(call.lines, b"\n".join([*lines, b""])).splitlines(keepends=True)
    except (MemoryError, Fault):
        return None
