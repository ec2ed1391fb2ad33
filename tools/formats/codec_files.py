"""The files in Rattle that are generated from a schema, as a whole: definitions in specs/Json, code in src/codec,
proofs in proofs/Written and proofs/codec."""

import re
from collections.abc import Callable, Iterator

from sources import ROOT

from formats.codec_answers import answers
from formats.codec_code import code
from formats.codec_proofs import proofs
from formats.codec_specs import specs
from formats.codecs import Codec, Codecs, camel, snake
from formats.language import GENERATED
from formats.rattle_imports import antt_file, code_file, defined
from formats.schema import Format

CODE = {
    "deno_graph_json": "Element Expected FromJson JsonWriter NameList ObjectReader ReadError ToJson ToObject",
    "deno_graph_json::read": "read_str",
    "std::alloc": "AllocError Global",
}


class Files:
    """The files of the types of a schema in one crate."""

    def __init__(self, codecs: Codecs) -> None:
        self.codecs = codecs
        self.crate = codecs.crate
        self.folder = f"crates/{codecs.crate}"
        self.by_file: dict[str, list[Codec]] = {}
        for codec in codecs.all:
            self.by_file.setdefault(self.file(codec), []).append(codec)
        self.specs = {f"specs.Json.{camel(file)}": self.joined(file, specs) for file in self.by_file}
        self.proofs = {f"proofs.Written.{camel(file)}": self.joined(file, proofs) for file in self.by_file}
        self.known = self.names()

    def joined(self, file: str, render: Callable[[Codec], str]) -> str:
        return "\n\n".join(map(render, sorted(self.by_file[file], key=lambda codec: not codec.names)))

    def file(self, codec: Codec) -> str:
        """The file of a type: its module, or a file of its own where a type in it is read by hand."""
        by_hand = {self.codecs.modules.get(self.codecs.type(each)) for each in self.codecs.by_hand}
        return snake(codec.type) if codec.module in by_hand else codec.module

    def names(self) -> dict[str, str]:
        """The modules of all names of definitions and proofs in the crate."""
        known: dict[str, str] = {}
        folder = ROOT / self.folder
        patterns = [f"{part}/{name}.antt" for part in ("specs", "proofs") for name in ("*/*", "*")]
        for path in (path for pattern in patterns for path in sorted(folder.glob(pattern))):
            text = path.read_text()
            if not text.startswith(f"-- {GENERATED}"):
                module = ".".join(path.relative_to(folder).with_suffix("").parts)
                known |= dict.fromkeys(defined(text), f"Rattle.{self.crate}.{module}")
        for module, text in {**self.specs, **self.proofs}.items():
            known |= dict.fromkeys(defined(text), f"Rattle.{self.crate}.{module}")
        return known | {name: f"{self.declared(name)}.{name}" for name in self.codecs.modules}

    def declared(self, type_name: str) -> str:
        return f"Rattle.{self.crate}.specs.declared.{self.codecs.folder}.{self.codecs.modules[type_name]}"

    def of_others(self, module: str) -> dict[str, str]:
        """The names that other modules define."""
        return {name: at for name, at in self.known.items() if at != f"Rattle.{self.crate}.{module}"}

    def aliases(self) -> list[str]:
        """The imports of the variants of types."""
        names = {
            camel(each["x-rattle"]): self.codecs.type(each)
            for each in self.codecs.format.titled()
            if "x-rattle" in each
        }
        found = {alias: name for alias, name in names.items() if name in self.codecs.modules}
        return [f"use {self.declared(found[alias])}.{found[alias]}.TheVariants as {alias}" for alias in found]

    def all(self) -> Iterator[tuple[str, str]]:
        source = self.codecs.format.path
        for file, codecs in self.by_file.items():
            titles = " and ".join(f"`{codec.type}`" for codec in codecs)
            module = f"specs.Json.{camel(file)}"
            about = f"{titles} as JSON: what is written, and what is read."
            text = antt_file(source, about, self.specs[module], self.of_others(module), self.aliases())
            yield f"{self.folder}/specs/Json/{camel(file)}.antt", text
            module = f"proofs.Written.{camel(file)}"
            about = f"{titles} as JSON: what is written is read back, and has no float."
            text = antt_file(source, about, self.proofs[module], self.of_others(module), self.aliases(), is_proof=True)
            yield f"{self.folder}/proofs/Written/{camel(file)}.antt", text
            yield f"{self.folder}/src/codec/{file}.rt", self.code(file, codecs)
            for codec in codecs:
                for path, text in answers(codec, self.codecs.whole):
                    place = f"proofs/codec/{file}/{path}"
                    goal = f"use Rattle.{self.crate}.{place.replace('/', '.')}.Goals as goal"
                    whole = antt_file(source, "", text, self.known, [goal], is_proof=True)
                    yield f"{self.folder}/{place}/Answers.antt", whole
        lines = [f"// {GENERATED} from {source}.", "//! Readers and writers of JSON.", ""]
        yield f"{self.folder}/src/codec.rt", "\n".join(
            [*lines, *(f"pub mod {file};" for file in sorted(self.by_file))]
        ) + "\n"

    def code(self, file: str, codecs: list[Codec]) -> str:
        text = "\n".join(code(codec, camel(file), self.codecs.whole) for codec in codecs)
        text = re.sub(r"VARIANTS\.(\w+)", lambda found: f"{self.declared(found[1])}.{found[1]}", text)
        paths = {name: path for path, names in CODE.items() for name in names.split()}
        paths |= {name: f"crate::{self.codecs.folder}::{module}" for name, module in self.codecs.modules.items()}
        for other, others in self.by_file.items():
            if other != file:
                paths |= {f"read_{codec.word}": f"crate::codec::{other}" for codec in others}
        return code_file(self.codecs.format.path, "", text, self.known, paths)


def files(info: Format) -> dict[str, str]:
    return dict(Files(Codecs(info, "deno_graph_info", "analysis", "ModuleInfo")).all())
