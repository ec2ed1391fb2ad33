"""The tables of docs/PROVED.md: the public functions of the crates, from their contracts and comments."""

import re
from collections.abc import Iterator
from dataclasses import dataclass
from pathlib import Path

from sources import ROOT

from formats.blocks import Block
from formats.pages import table
from formats.schema import Format

PAGE = "docs/PROVED.md"

# The crates of each table, or modules of one.
TABLES = {
    "program": ("modinfo", "modinfo_c"),
    "documents": (
        "modinfo_document",
        "modinfo_estree",
        "deno_graph_json/flat",
        "deno_graph_json/float",
        "deno_graph_json/pointer",
    ),
    "sources": ("deno_graph_base", "deno_graph_source"),
    "texts": ("modinfo_source", "modinfo_literals"),
    "information": ("deno_graph_info", "deno_graph_pragmas"),
    "dependencies": ("deno_graph_module_info", "deno_graph_dep", "deno_graph_jsdoc"),
    "parsers": ("deno_graph_analyzer",),
}

CLAUSE = re.compile(r"\s*ensures (\w*) ?\{")
FUNCTION = re.compile(r'( *)(pub )?(?:const )?(?:extern "C" )?fn (\w+)')
# The type of an `impl`, or a trait.
OWNER = re.compile(r"impl(?:<.*?>)? (\w+)(?:<.*>)?(?: \{)?$|pub trait (\w+)")
MODULE = re.compile(r"^pub mod (\w+);", re.MULTILINE)
REEXPORT = re.compile(r"^pub use ([^;]*);", re.MULTILINE)


@dataclass
class Promise:
    """Clauses of a public function, and the sentence that says what they ensure."""

    path: str
    function: str
    owner: str
    clauses: list[str]
    sentence: str

    def row(self) -> list[str]:
        name = f"{self.owner}::{self.function}" if self.owner else self.function
        clauses = ", ".join(f"`{clause}`" for clause in self.clauses if clause)
        return [f"[`{name}`](../{self.path})", clauses, self.sentence.replace("|", "\\|")]


def first_sentence(comment: list[str]) -> str:
    paragraph = "\n".join(comment).partition("\n\n")[0].replace("\n", " ")
    return re.split(r"(?<=[^.]\.) (?=[A-Z`])", paragraph)[0]


def promises(path: Path) -> Iterator[Promise]:
    """The promises of the functions of a file that are public, or of a public trait."""
    lines = path.read_text().split("\n")
    owner, is_trait, about, end = "", False, list[str](), 0
    for number, line in enumerate(lines):
        if number < end:
            continue
        if found := OWNER.match(line):
            owner, is_trait = found[1] or found[2], bool(found[2])
        elif re.match(r"impl\b", line):
            owner, is_trait = "an impl of a trait", False
        elif line.startswith("}"):
            owner, is_trait = "", False
        if found := FUNCTION.match(line):
            end = next(n for n in range(number, len(lines)) if is_end(lines[n], found[1]))
            if found[2] or is_trait and found[1]:
                yield from of_function(str(path.relative_to(ROOT)), owner, found[3], about, lines[number:end])
        elif found := re.match(r"\s*/// ?(.*)", line):
            about = [*about, found[1]]
            continue
        if line.strip() and not line.strip().startswith("#"):
            about = []


def is_end(line: str, indent: str) -> bool:
    """Whether a line ends the contract of a function: it begins the body, or is the last of a trait's function."""
    return line in (f"{indent}{{", f"{indent}{{}}") or line.endswith(";") or bool(re.match(r" *(\)|.*fn ).* \{", line))


def of_function(path: str, owner: str, name: str, about: list[str], contract: list[str]) -> Iterator[Promise]:
    """The clauses with a comment each have their own sentence, the others that of the function."""
    comment: list[str] = []
    rest: list[str] = []
    own: list[Promise] = []
    for line in contract:
        if found := re.match(r"\s*// ?(.*)", line):
            comment.append(found[1])
        elif found := CLAUSE.match(line):
            if comment:
                own.append(Promise(path, name, owner, [found[1]], first_sentence(comment)))
            else:
                rest.append(found[1])
            comment = []
    if rest:
        yield Promise(path, name, owner, rest, first_sentence(about))
    yield from own


def is_public(promise: Promise, crate: Path, modules: set[str], names: set[str]) -> bool:
    module = Path(promise.path).relative_to(crate.relative_to(ROOT) / "src").with_suffix("").parts
    return "/".join(module) in modules or (promise.owner or promise.function) in names


def public_modules(folder: Path, text: str, before: str = "") -> Iterator[str]:
    for name in MODULE.findall(text):
        path = f"{before}{name}"
        yield path
        yield from public_modules(folder, (folder / f"{path}.rt").read_text(), f"{path}/")


def reexported(text: str) -> set[str]:
    return {name for path in REEXPORT.findall(text) for name in re.findall(r"(\w+)(?=\s*(?:[,}]|$))", path)}


def of_crate(path: str) -> Iterator[Promise]:
    """The promises of a crate, or of one of its modules."""
    name, _, module = path.partition("/")
    crate = ROOT / "crates" / name
    sources = crate / "src"
    root = (sources / "lib.rt").read_text()
    modules = {"lib", *public_modules(sources, root)}
    names = reexported(root)
    for each in modules - {"lib"}:
        names |= reexported((sources / f"{each}.rt").read_text())
    for file in sorted(sources.rglob("*.rt")):
        if file.is_relative_to(sources / module) or file == sources / f"{module}.rt":
            yield from (promise for promise in promises(file) if is_public(promise, crate, modules, names))


def blocks(_document: Format, _info: Format, _report: Format) -> Iterator[Block]:
    for name, crates in TABLES.items():
        rows = [promise.row() for path in crates for promise in of_crate(path)]
        yield PAGE, name, table("Function | Clauses | Promise", rows)
