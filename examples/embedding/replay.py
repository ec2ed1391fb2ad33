"""Replays the test cases of the program (docs/ROWS.md) through the library, in one process.

usage: python3 replay.py LIBRARY FOLDER
example: python3 examples/embedding/replay.py build/libmodinfo.so crates/test_replay/data

Each test case is called with room for just its output, and with one byte less: then nothing may be
written, and the length that is needed has to be returned. After the room are bytes that no call may touch.
"""

import ctypes
import json
import sys
from pathlib import Path

from analyze import ANSWERED, FAULT, TOO_SMALL, Modinfo

EXAMPLES = Path(__file__).resolve().parent.parent
TABLE = json.loads((EXAMPLES.parent / "docs/commands.json").read_text())["commands"]
# Each command by its words, and by those that follow `check`, where analyze needn't be named.
COMMANDS = {tuple(row["words"]): row["answer"]["function"] for row in TABLE}
CHECKED = {**COMMANDS, **{words[1:]: name for words, name in COMMANDS.items() if words[0] == "analyze"}}
# Each command's function that writes reports.
CHECKS = {row["answer"]["function"]: row["check"]["function"] for row in TABLE}
# The numbers of the commands whose functions take a text in place of a document. modinfo_run takes their documents.
NUMBERS = {
    row[kind]["function"]: row[kind]["number"] for row in TABLE if row.get("reads_text") for kind in ("answer", "check")
}
FUNCTIONS = {*CHECKS, *CHECKS.values()} - {*NUMBERS}
GUARD = b"\xa5" * 64
# Of each command, the endings of the names of its examples and of their expected outputs.
ENDINGS = {
    "analyze": (".json", ".out.json"),
    "convert": (".convert.json", ".converted.json"),
    "reach": (".reach.json", ".reached.json"),
}


def examples():
    """The command, the document and the expected output of each example."""
    for command, (document, output) in ENDINGS.items():
        for expected in sorted(EXAMPLES.glob(f"*{output}")):
            yield command, EXAMPLES / (expected.name.removesuffix(output) + document), expected


def blocks(text):
    """The test cases of a file, each a list of (word, rest)."""
    case = []
    for line in text.split("\n"):
        if not line or line.startswith("#"):
            continue
        word, _, rest = line.partition(" ")
        if word == "row" and case:
            yield case
            case = []
        case.append((word, rest))
    if case:
        yield case


def cases_of_runs(folder):
    """The words, and the lines by their first words, of each test case that runs the program."""
    for file in sorted(folder.glob("*.rows")):
        for case in blocks(file.read_text()):
            fields = {}
            for word, rest in case:
                fields.setdefault(word, []).append(rest)
            program, *words = fields["call"][0].split()
            if program in ("serve", "both"):
                yield words, fields
            if program == "both":
                yield ["check", *words], {**fields, "output": fields["report"]}


def program_cases(folder):
    """The name, command, input, status and answer of each test case that runs the program on one command."""
    for words, fields in cases_of_runs(folder):
        command = COMMANDS.get(tuple(words))
        if command is not None:
            yield fields["row"][0], command, input_of(folder, fields), *wanted_of(folder, fields)


def check_cases(folder):
    """The name, command, input and report of each test case that checks one document."""
    for words, fields in cases_of_runs(folder):
        command = CHECKED.get(tuple(words[1:]))
        if words[:1] == ["check"] and command is not None:
            yield fields["row"][0], command, input_of(folder, fields), output_of(folder, fields)


def input_of(folder, fields):
    if "bytes" in fields:
        return bytes.fromhex("".join(fields["bytes"]))
    if "input-from" in fields:
        return (folder / fields["input-from"][0]).read_bytes()
    return "\n".join(fields.get("input", [])).encode()


def wanted_of(folder, fields):
    if int(fields.get("status", ["0"])[0]) == 0:
        return ANSWERED, output_of(folder, fields)
    return FAULT, fields["errors"][0].removeprefix("modinfo: ").encode()


def output_of(folder, fields):
    if "output-from" in fields:
        return (folder / fields["output-from"][0]).read_bytes()
    return "".join(line + "\n" for line in fields["output"]).encode()


def calls(folder):
    """The name, function, document, status and answer of each test case that the library can replay."""
    yield from program_cases(folder)
    for name, command, document, report in check_cases(folder):
        yield name, CHECKS[command], document, ANSWERED, report


def called(modinfo, function, document, room):
    """The status, the length, and the room with the bytes after it."""
    length = ctypes.c_size_t()
    answer = ctypes.create_string_buffer(b"\xa5" * room + GUARD, room + len(GUARD))
    rest = document, len(document), answer, room, ctypes.byref(length)
    if function in NUMBERS:
        status = modinfo.library.modinfo_run(NUMBERS[function], *rest)
    else:
        status = getattr(modinfo.library, f"modinfo_{function}")(*rest)
    return status, length.value, answer.raw


def fails(modinfo, function, document, status, wanted):
    size = len(wanted)
    if called(modinfo, function, document, size) != (status, size, wanted + GUARD):
        return "with room for the answer"
    if called(modinfo, function, document, size + 7) != (status, size, wanted + GUARD[:7] + GUARD):
        return "with more room"
    if called(modinfo, function, document, size - 1) != (TOO_SMALL, size, b"\xa5" * (size - 1) + GUARD):
        return "with too little room"
    return None


def main():
    if sys.argv[1:2] in (["-h"], ["--help"]):
        print(__doc__.rstrip())
        return 0
    if len(sys.argv) != 3:
        print("usage: python3 replay.py LIBRARY FOLDER", file=sys.stderr)
        return 2
    modinfo, folder = Modinfo(sys.argv[1], FUNCTIONS), Path(sys.argv[2])
    count = wrong = 0
    for name, function, document, status, wanted in calls(folder):
        count += 1
        failure = fails(modinfo, function, document, status, wanted)
        if failure is not None:
            wrong += 1
            print(f"{name}: {failure}: {called(modinfo, function, document, 4096)[:2]}", file=sys.stderr)
    print(f"test cases: {count}, of which {wrong} failed")
    return 1 if wrong or count == 0 else 0


if __name__ == "__main__":
    sys.exit(main())
