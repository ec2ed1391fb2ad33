"""The commands of the program modinfo, by the library: `python -m modinfo files a.ts b.ts`."""

import argparse
import json
import os
import sys
from collections.abc import Iterable, Iterator, Sequence
from typing import BinaryIO, TextIO

import modinfo

from . import _library
from ._json import json_of

FORMS = {
    "estree": "the document has the tree of a parser, as ESTree describes it",
    "source": "the document has a source text",
}

DESCRIPTION = """\
Prints what JavaScript and TypeScript modules depend on. Each command but files reads one JSON document from the
standard input, and prints one line of JSON."""

EPILOG = """\
Status 0; 1 where the document is refused, with one line on the error output, and where a file or a checked document
has a fault; 2 for words that aren't the usage."""

COMMANDS = {
    "analyze": "what a module depends on, from its source, tree and comments",
    "convert": "the information of one module in version 2, from that of version 1",
    "reach": "the keys that a root reaches among modules",
    "check": "a report on a document of analyze, or of the command that OF names",
}
FILES = "for each file its URL and what it depends on, or its fault"


def parser() -> argparse.ArgumentParser:
    words = argparse.ArgumentParser(prog="python -m modinfo", description=DESCRIPTION, epilog=EPILOG)
    words.add_argument("--version", action="version", version=f"modinfo {modinfo.version()}")
    commands = words.add_subparsers(dest="command", metavar="COMMAND", required=True)
    for name, meaning in COMMANDS.items():
        command = commands.add_parser(name, help=meaning, description=f"Prints {meaning}.")
        if name in ("analyze", "check"):
            forms = command.add_mutually_exclusive_group()
            for form, about in FORMS.items():
                forms.add_argument(f"--{form}", dest="form", action="store_const", const=f"analyze_{form}", help=about)
        if name == "check":
            command.add_argument("of", metavar="OF", nargs="?", default="analyze", choices=list(COMMANDS)[:-1])
            command.add_argument("--strict", action="store_true", help="a warning counts as a fault does")
        command.add_argument("--lines", action="store_true", help="each line of the input is a document")
        add_jobs(command, "threads, with --lines")
    command = commands.add_parser("files", help=FILES, description=f"Prints {FILES}.")
    command.add_argument("paths", metavar="FILE", nargs="+")
    add_jobs(command, "threads")
    return words


def add_jobs(command: argparse.ArgumentParser, about: str) -> None:
    command.add_argument("--jobs", metavar="N", type=positive, default=1, help=f"{about} (%(default)s)")


def positive(word: str) -> int:
    number = int(word)
    if number < 1:
        raise argparse.ArgumentTypeError(f"{word} is not above zero")
    return number


def command_of(words: argparse.Namespace) -> modinfo.Command:
    """The command whose documents are read."""
    command: modinfo.Command = words.of if words.command == "check" else words.command
    return getattr(words, "form", None) or command


def buffer_of(stream: TextIO | None) -> BinaryIO:
    """The bytes of the standard input or output. Raises OSError where that is closed, as by `<&-` in a shell."""
    if stream is None:
        raise OSError("the standard input or output is closed")
    return stream.buffer


def print_one(words: argparse.Namespace) -> int:
    document = buffer_of(sys.stdin).read()
    command = command_of(words)
    if words.command == "check":
        function = _library.COMMANDS[command].check.one
        return print_reports([_library.room().call(function, document)], words.strict)
    buffer_of(sys.stdout).write(modinfo._answer_line(command, document))
    return 0


def print_lines(words: argparse.Namespace) -> int:
    lines = buffer_of(sys.stdin)
    command = command_of(words)
    if words.command == "check":
        return print_reports(modinfo.check_lines(lines, command, words.jobs), words.strict)
    buffer_of(sys.stdout).writelines(modinfo._lines(command, lines, words.jobs))
    return 0


def print_files(words: argparse.Namespace) -> int:
    status = 0
    for specifier, found in modinfo.files(words.paths, words.jobs):
        if isinstance(found, modinfo.Fault):
            status = 1
            fault: dict[str, object] = {"name": found.name, "message": found.message}
            if found.line is not None:
                fault["position"] = [found.line, found.character]
            members: dict[str, object] = {"specifier": specifier, "fault": fault}
        else:
            members = {"specifier": specifier, "info": found.to_dict()}
        buffer_of(sys.stdout).write(json_of(members).encode() + b"\n")
    return status


def print_reports(reports: Iterable[bytes], is_strict: bool) -> int:
    failed = False

    def looked_at() -> Iterator[bytes]:
        nonlocal failed
        for line in reports:
            failed |= not passes(json.loads(line), is_strict)
            yield line

    buffer_of(sys.stdout).writelines(looked_at())
    return 1 if failed else 0


def passes(report: modinfo.Report, is_strict: bool) -> bool:
    return "valid" in report and not (is_strict and "warnings" in report)


def main(arguments: Sequence[str] | None = None) -> int:
    usage = parser()
    words = usage.parse_args(arguments)
    if getattr(words, "form", None) and getattr(words, "of", "analyze") != "analyze":
        usage.error("--estree and --source are for documents of analyze")
    try:
        if words.command == "files":
            status = print_files(words)
        else:
            status = print_lines(words) if words.lines else print_one(words)
        buffer_of(sys.stdout).flush()
        return status
    except BrokenPipeError:
        # The reader of the output has ended. Nothing more is written, not even at the exit.
        os.dup2(os.open(os.devnull, os.O_WRONLY), sys.stdout.fileno())
        return 1
    except (modinfo.Fault, OSError) as error:
        print(f"modinfo: {error}", file=sys.stderr)
        return 1


if __name__ == "__main__":
    sys.exit(main())
