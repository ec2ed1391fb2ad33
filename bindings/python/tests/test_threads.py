import json
import sys
import threading
import time
from concurrent.futures import ThreadPoolExecutor
from typing import Any

import pytest
from repository import CASES, answer, examples, program_cases

import modinfo
from modinfo import _library

THREADS = 8
CALLS = 1000


def outcome(command: str, document: bytes) -> Any:
    try:
        return answer(command, document)
    except modinfo.Fault as fault:
        return fault.name


def test_eight_threads_at_once() -> None:
    calls = [
        (command, document.read_bytes(), json.loads(wanted.read_text())) for command, document, wanted in examples()
    ]
    for _, command, document, status, wanted in program_cases(CASES):
        calls.append((command, document, json.loads(wanted) if status == 0 else wanted.decode()))
    together = threading.Barrier(THREADS)

    def wrong(thread: int) -> list[tuple[str, bytes]]:
        together.wait()
        turned = calls[thread * 37 :] + calls[: thread * 37]
        return [(command, document) for command, document, wanted in turned if outcome(command, document) != wanted]

    with ThreadPoolExecutor(THREADS) as threads:
        assert list(threads.map(wrong, range(THREADS))) == [[]] * THREADS


def test_a_call_inside_another(monkeypatch: pytest.MonkeyPatch) -> None:
    """As a handler of signals makes it, after the library has written its answer and before that is taken."""
    command = _library.COMMANDS["convert"]

    def interrupted(*arguments: Any) -> int:
        status = command.answer.one(*arguments)
        assert modinfo.check("[22]", "convert") == {"valid": True}
        return status

    call = _library.Call(interrupted, command.answer.lines)
    monkeypatch.setitem(_library.COMMANDS, "convert", _library.Command(call, command.check))
    assert modinfo.convert("[1]") == [1]


def test_that_python_s_lock_is_free_during_a_call() -> None:
    """No thread is made to give the lock away here, so another one runs in a call only where the call does."""
    document = b'{"members":[' + b'{"a":[1,2,3]},' * 20_000 + b"0]}"
    inside = False
    seen = False

    def call(function: Any) -> None:
        nonlocal inside
        room = _library.Room()
        for _ in range(CALLS):
            inside = True
            room.call(function, document)
            inside = False
            if seen:
                return

    interval = sys.getswitchinterval()
    sys.setswitchinterval(1_000_000)
    try:
        thread = threading.Thread(target=call, args=[_library.COMMANDS["convert"].answer.one])
        thread.start()
        while thread.is_alive() and not seen:
            seen = inside
            time.sleep(0)
        thread.join()
    finally:
        sys.setswitchinterval(interval)
    assert seen
