"""What is written from docs/commands.json: --help, the manual pages, the headers for C and C++, the symbols of Debian's
library, and the tables of commands for Python and Rust. completions.py writes the completions of shells."""

import json
import re
from collections.abc import Iterable, Iterator
from textwrap import wrap
from typing import Any

from linking import EXPORTED
from sources import ROOT, BuildError

from formats.blocks import Block
from formats.language import filled
from formats.schema import Format

PATH = "docs/commands.json"
HELP = "crates/modinfo/src/help.rt"
PAGE = "packaging/module-info.1"
SYMBOLS = "packaging/debian/libmodinfo0.symbols"
WIDTH = 100
SCREEN = 80
COLUMN = 12

Entry = dict[str, Any]
COMMANDS: Entry = json.loads((ROOT / PATH).read_text())

# The commands whose function for C reads a document. One that reads a source text takes its parts instead.
OF_DOCUMENTS = [row for row in COMMANDS["commands"] if not row.get("reads_text")]
# The functions for C that read a document: those that answer, and then those that check.
FUNCTIONS = [row[kind] for kind in ("answer", "check") for row in OF_DOCUMENTS]
NAMES = [function["function"] for function in FUNCTIONS]
# The names of the functions of all commands, by their numbers.
BY_NUMBER: dict[int, str] = dict(
    sorted((row[kind]["number"], row[kind]["function"]) for row in COMMANDS["commands"] for kind in ("answer", "check"))
)


def lines_of(name: str, text: str, column: int) -> list[str]:
    """A name and a text that begins in a column, on the next line where the name is too long."""
    if len(name) + 3 > column:
        return [f"  {name}", *lines_of("", text, column)]
    return filled(text, f"  {name}".ljust(column), WIDTH, " " * column)


def overview() -> str:
    """The beginning of --help, which fits a screen."""
    column = max(len(each["name"]) for each in COMMANDS["names"]) + 4
    parts: list[list[str]] = [
        [COMMANDS["title"]],
        ["usage: " + "\n       ".join(COMMANDS["usage"])],
        [f"  {each['name']}".ljust(column) + each["brief"] for each in COMMANDS["names"]],
        indented(COMMANDS["examples"]),
        wrap(COMMANDS["last"], SCREEN),
    ]
    return in_parts(parts)


def help_on(command: Entry) -> str:
    """The text of --help on a command."""
    flags = [each for each in COMMANDS["flags"] if each["name"] in command["words"]]
    faults = [each for each in COMMANDS["faults"] if command["name"] in each["of"]]
    parts: list[list[str]] = [
        [f"modinfo {command['name']}: {command['brief']}"],
        ["usage: " + "\n       ".join(command["usage"])],
        wrap(command["text"], WIDTH, break_on_hyphens=False),
        sum([lines_of(each["name"], each["text"], COLUMN) for each in flags], []),
        indented(command["examples"]),
        wrap(command.get("more", ""), WIDTH),
        indented(command.get("more_examples", [])),
        ["Faults:"],
        sum([lines_of(each["names"], each["text"], 19) for each in faults], []),
    ]
    return in_parts([part for part in parts if part])


def indented(lines: list[str]) -> list[str]:
    return [f"  {line}" for line in lines]


def in_parts(parts: list[list[str]]) -> str:
    """The text with an empty line between parts."""
    return "\n\n".join("\n".join(part) for part in parts) + "\n"


def in_troff(text: str) -> str:
    escaped = text.replace("\\", r"\e").replace("-", r"\-")
    return re.sub(r"(?m)^([.'])", r"\\&\1", escaped)


def synopsis() -> str:
    """The usage, in which words of the command line are bold, and others and the brackets are not."""
    lines = [line.replace("modinfo ", "module-info ", 1) for line in COMMANDS["usage"]]
    return "\n.br\n".join(re.sub(r"(-V|[a-z-]+)", r"\\fB\1\\fP", line) for line in lines).replace("-", r"\-")


def entries_of_page(entries: list[Entry]) -> Iterator[str]:
    """Each part of a sentence is on a line of its own, as troff has it. A flag names the commands that take it."""
    for each in entries:
        takers = [name["name"] for name in COMMANDS["names"] if "usage" not in each and each["name"] in name["words"]]
        text = f"of {', '.join(takers)}: {each['text']}" if takers else each["text"]
        yield from (".TP", f".B {in_troff(each['name'])}")
        for part in re.split(r"(?<=[.;,]) ", text):
            yield from wrap(in_troff(part), 79, break_on_hyphens=False)


def prototype(function: Entry) -> list[str]:
    """The lines of a declaration in C."""
    before = f"uint8_t modinfo_{function['function']}("
    rest = "uint8_t *answer, size_t room, size_t *length)"
    return [f"{before}const uint8_t *document, size_t document_length,", " " * len(before) + rest]


def in_header() -> Iterator[str]:
    for function in FUNCTIONS:
        lines = wrap(f"/* {function['text']} */", 110, subsequent_indent=" * ")
        first, second = prototype(function)
        yield from ("", *lines, first, f"{second} MODINFO_NONNULL;")


def in_cpp() -> Iterator[str]:
    for row in OF_DOCUMENTS:
        name, check = (row[kind]["function"] for kind in ("answer", "check"))
        yield from ("", f"/* {row['answer']['returns']} */", f"inline std::string {name}(std::string_view document)")
        yield from ("{", f"    return detail::answer(modinfo_{name}, modinfo_{check}, document);", "}")
    for row in OF_DOCUMENTS:
        name, check = (row[kind]["function"] for kind in ("answer", "check"))
        yield from ("", f"/* The report on a document of {name}. */")
        body = f"{{ return detail::report(modinfo_{check}, document); }}"
        yield f"inline std::string {check}(std::string_view document) {body}"


def in_manual() -> Iterator[str]:
    parameters = r"\b(document_length|document|answer|room|length)\b"
    for function in FUNCTIONS:
        for line in prototype(function):
            parts = [part for part in re.split(parameters, line + (";" if line.endswith(")") else "")) if part]
            yield ".BI " + " ".join(f'"{part}"' for part in parts)


def in_prose(names: Iterable[str]) -> list[str]:
    """Names in bold, with commas between all but the last two."""
    *first, next_to_last, last = names
    return [*(f".BR {name} ," for name in first), f".B {next_to_last}", "and", f".BR {last} ."]


def blocks(_document: Format, _info: Format, _report: Format) -> Iterator[Block]:
    constants = {f"MODINFO_{name.upper()}": number for number, name in BY_NUMBER.items()}
    yield "include/modinfo.h", "commands", [",\n".join(f"    {name} = {constants[name]}" for name in constants)]
    yield "include/modinfo.h", "functions", list(in_header())
    yield "include/modinfo.hpp", "functions", list(in_cpp())
    yield "packaging/modinfo.3", "functions", list(in_manual())
    yield "packaging/modinfo.3", "names", wrap(", ".join(f"modinfo_{name}" for name in NAMES) + ",", 79)
    yield "packaging/modinfo.3", "commands", in_prose(constants)
    yield PAGE, "synopsis", [synopsis()]
    yield PAGE, "commands", list(entries_of_page(COMMANDS["names"]))
    yield PAGE, "flags", list(entries_of_page(COMMANDS["flags"]))
    yield "bindings/python/src/modinfo/_library.py", "commands", [
        f'    "{row["answer"]["function"]}": _command({row["answer"]["number"]}, {row["check"]["number"]}),'
        for row in COMMANDS["commands"]
    ]
    yield "bindings/rust/src/command.rs", "commands", list(in_rust())
    yield "bindings/rust/tests/suite/repository.rs", "functions", list(in_rust_tests())
    yield "bindings/rust/src/ffi.rs", "functions", [f"    modinfo_{name}" for name in NAMES]
    yield "bindings/rust/src/ffi.rs", "constants", [
        f"pub const {name.upper()}: DocumentFunction = modinfo_{name};" for name in NAMES
    ]


def of_text(name: str) -> str:
    """The function of the crate that returns the text of a command's answer."""
    return "module_info_json" if name == "analyze_source" else f"{name}_json"


def in_rust() -> Iterator[str]:
    """The variants of commands, each with the function of the crate that returns the text of its answer."""
    for number, name in BY_NUMBER.items():
        function = of_text(name)
        yield f"    /// [`{function}`](crate::{function})\n    {name.title().replace('_', '')} = {number},"


def in_rust_tests() -> Iterator[str]:
    """The function of the crate for the words of each command on documents."""
    for row in OF_DOCUMENTS:
        words, name = " ".join(row["words"]), row["answer"]["function"]
        yield f'        "{words}" => |text| modinfo::{of_text(name)}(text).map_err(Fault::from),'
    for row in OF_DOCUMENTS:
        words = " ".join(["check", *row["words"]])
        # analyze needn't be named.
        patterns = map(json.dumps, dict.fromkeys((words.replace(" analyze", ""), words)))
        yield f"        {' | '.join(patterns)} => modinfo::{of_text(row['check']['function'])},"


def with_help(text: str) -> str:
    """The text of the file with --help: a screen on all commands, and each command's."""
    texts = {"HELP": overview(), **{f"{each['name'].upper()}_HELP": help_on(each) for each in COMMANDS["names"]}}
    for name, written in texts.items():
        found = re.search(rf'pub const {name}: &str =\s+r#"(.*?)"#;', text, re.DOTALL)
        if not found:
            raise BuildError(f"{HELP} has no {name}")
        text = text[: found.start(1)] + written + text[found.end(1) :]
    return text


def symbols(text: str) -> str:
    """The text of the file with the library's symbols. A function that it doesn't have yet is new in this version."""
    version = (ROOT / "VERSION").read_text().strip()
    head, since = text.split("\n modinfo_")[0], dict(re.findall(r" (\w+)@Base (\S+)", text))
    return "\n".join([head, *(f" {name}@Base {since.get(name, version)}" for name in sorted(EXPORTED))]) + "\n"


def files() -> dict[str, str]:
    return {path: written((ROOT / path).read_text()) for path, written in ((HELP, with_help), (SYMBOLS, symbols))}
