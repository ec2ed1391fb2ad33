"""Generated files in Rattle: their first lines, their imports of each name that they use, and lines that fit."""

import re
from collections.abc import Iterable, Mapping
from textwrap import wrap

from formats.language import GENERATED, filled

COLUMNS = 110
# The names of libraries, by modules. A notation is imported where its sign is used.
MODULES = {
    "Rattle.serde_json.specs.Data": "Data Members string no_members",
    "Rattle.serde_json.specs.Find": "as_bool as_object as_str get_member",
    "Rattle.serde_json.specs.Written": "has_float",
    "Rattle.deno_graph_json.specs.Data": "data_of",
    "Rattle.deno_graph_json.specs.Ascending": "has_ascending_keys",
    "Rattle.deno_graph_json.specs.JsonWriter": "Output with_member",
    "Rattle.deno_graph_json.specs.Object": "Entry object_of array_of if_true if_any unless put_entries with_present",
    "Rattle.deno_graph_json.specs.ObjectReader": "readable value_of",
    "Rattle.deno_graph_json.specs.Read.Error": "Expects",
    "Rattle.deno_graph_json.specs.Read.Expected": "IsNoNameIn",
    "Rattle.deno_graph_json.specs.declared.expected.Expected.TheVariants": "NameIn",
    "Rattle.deno_graph_json.specs.declared.names.NameList.TheVariants": "StaticKinds DynamicKinds PartTypes"
    " DependencyTypes ReferenceTypes",
    "Rattle.deno_graph_json.specs.Read.Partial": "◌>>=◌ member_at member_or reads_array reads_optional read_or",
    "Rattle.deno_graph_json.specs.Read.Result": "IsReadResult",
    "Rattle.deno_graph_json.specs.Json.Position": "json_of_range reads_range IsHeldRange",
    "Rattle.deno_graph_json.specs.Json.ResolutionMode": "json_of_mode reads_mode",
    "Rattle.deno_graph_json.proofs.NoFloats": "option_has_float neither no_float-object_of no_float-if_true"
    " no_float-if_any no_float-option",
    "Rattle.deno_graph_json.proofs.Objects": "has_distinct_keys entry_at",
    "Rattle.deno_graph_json.proofs.ReadBack": "member_at-table reads_at reads_or range_back list_back flag_back"
    " mode_back",
    "Rattle.deno_graph_json.proofs.Reading": "goes_on exits member_on object_on read_error",
    "Rattle.std.proofs.lemmas.Result": "on_ok_weaker",
}
PRELUDE = (
    "◌≡◌ ℕ List [] ◌∷◌ codes true false bytes_eq option_map Option Some None All IfSome IfErr"
    " unwrap_or if◌then◌else◌ refl ap ◌∙◌ rules"
)
LIBRARIES = {name: module for module, names in MODULES.items() for name in names.split()}
GHOST = re.compile(r"(?:ghost \w+ =|ensures \w*|requires) ?\{(.*?)\}(?=;|\n(?:    )?(?:\{|ensures))", re.DOTALL)
SIGNS = {"◌≡◌": "≡", "◌∷◌": "∷", "[]": "[]", "if◌then◌else◌": "then", "◌>>=◌": "← >>=", "◌∙◌": "∙"}


def words(text: str) -> list[str]:
    """The names and signs of a text, each once, without comments and strings."""
    code = re.sub(r'--.*|"[^"]*"', "", text)
    return list(dict.fromkeys(re.findall(r"\[\]|[^\s(){}\[\],;:.]+", code)))


def imports(text: str, known: Mapping[str, str], prelude: str) -> list[str]:
    """A line of imports for each module, or several where one is too long. `prelude` is the module of std's names."""
    used = {*words(text)}
    names = {**dict.fromkeys(PRELUDE.split(), prelude), **LIBRARIES, **known}
    by_module: dict[str, list[str]] = {}
    for name, module in names.items():
        if used & {*SIGNS.get(name, name).split()}:
            by_module.setdefault(module, []).append(name)
    return [line for module in by_module for line in packed(f"use {module}.", by_module[module])]


def packed(before: str, names: Iterable[str]) -> list[str]:
    """The names in as few lines as have room for them."""
    rows: list[str] = []
    for name in names:
        if rows and len(f"{before}{{{rows[-1]}, {name}}}") <= COLUMNS:
            rows[-1] += f", {name}"
        else:
            rows.append(name)
    return [f"{before}{{{row}}}" for row in rows]


def folded(line: str) -> str:
    """A line of a definition or a proof in as many lines as it needs."""
    indent = len(line) - len(line.lstrip())
    rest = " " * (indent + 2 if indent else 4)
    return (
        "\n".join(wrap(line, COLUMNS, subsequent_indent=rest, break_long_words=False, break_on_hyphens=False)) or line
    )


def defined(text: str) -> list[str]:
    """The public names that a file of definitions or proofs has."""
    return re.findall(r"^(?:abbrev |unfoldable )?pub (?:record )?([\w-]+) ", text, re.MULTILINE)


def antt_file(
    source: str, about: str, text: str, known: Mapping[str, str], others: Iterable[str], *, is_proof: bool = False
) -> str:
    """A file of definitions or proofs, from a schema. `others` are imports of modules, for those that it uses."""
    prelude = "Rattle.std.proofs.Common" if is_proof else "Rattle.std.specs.Prelude"
    lines = [f"-- {GENERATED} from {source}.", *filled(about, "-- ", COLUMNS), *imports(text, known, prelude)]
    lines += [each for each in others if re.search(rf"(?<![\w.]){each.rpartition(' ')[2]}\.\w", text)]
    return "\n".join([*lines, "", *map(folded, text.rstrip().split("\n"))]) + "\n"


def code_file(source: str, about: str, text: str, known: Mapping[str, str], paths: Mapping[str, str]) -> str:
    """A file of code, from a schema. `known` are definitions, and `paths` the paths of the names in code."""
    ghost = "\n".join(GHOST.findall(text))
    lines = [f"// {GENERATED} from {source}.", *filled(about, "//! ", COLUMNS), ""]
    lines += [*(f"ghost {line};" for line in imports(ghost, known, "Rattle.std.specs.Prelude")), ""]
    used = {*re.findall(r"(?<![.\w])\w+", re.sub(r"//.*", "", GHOST.sub("", text)))} - {
        *re.findall(r"\bfn (\w+)", text)
    }
    by_path: dict[str, list[str]] = {}
    for name in sorted(used & {*paths}):
        by_path.setdefault(paths[name], []).append(name)
    in_code = {path: names[0] if len(names) == 1 else f"{{{', '.join(names)}}}" for path, names in by_path.items()}
    lines += sorted(f"use {path}::{in_code[path]};" for path in in_code)
    return "\n".join(lines) + f"\n\n{text}"
