"""The kinds of nodes of a module document in Rattle: what is read of each, the readers, and the proofs that the members
of a node have the literal and the arguments of its kind."""

import json
from collections.abc import Iterator
from dataclasses import dataclass

from formats.blocks import Block
from formats.codecs import camel, snake
from formats.language import filled
from formats.rattle_imports import COLUMNS, antt_file, code_file
from formats.schema import Format, Schema, choices, literals

CRATE = "crates/modinfo_document"
MODULE = "Rattle.modinfo_document"
DECLARED = "Rattle.deno_graph_source.specs.declared.tree"
READING = "using(deno_graph_json::proofs::Reading::reading)"
LISTS = "Rattle.deno_graph_json.specs.declared.names.NameList.TheVariants"
# The number of reads that the prover follows without an answer, and of members that are looked for one by one.
READS = 4
FEW = 3
# The phase of a callee that is a kind of `import`.
PHASES = {"import": "Evaluation", "importSource": "Source", "importDefer": "Defer"}
# What defines the types and the words of the definitions.
TYPES = {
    **dict.fromkeys(("Kind", "ImportPhase", "Callee", "BinaryOp"), f"{DECLARED}.node"),
    "MediaType": f"{DECLARED}.media_type",
    "CommentKind": f"{DECLARED}.comments",
}
KNOWN = {
    **{name: f"{TYPES[name]}.{name}" for name in TYPES},
    **dict.fromkeys(("named", "ExpectsNameIn", "reads_named"), f"{MODULE}.specs.Named"),
    **dict.fromkeys(("reads_arg", "reads_key"), f"{MODULE}.specs.KindParts"),
    **dict.fromkeys(("reads_literal", "reads_string"), f"{MODULE}.specs.Literal"),
    **dict.fromkeys(
        ("HasParts", "has_args", "has_literal", "has_none", "has_optional", "one_of"), f"{MODULE}.proofs.KindParts"
    ),
    "step": f"{MODULE}.proofs.NodeLookup",
}
CODE = {
    "crate::document": "Document",
    "deno_graph_json": "Element Expected FromJson NameList ObjectReader ReadError",
    "deno_graph_json::read": "read_str",
    "deno_graph_source::tree": "BinaryOp Callee CommentKind ImportPhase Kind MediaType",
    "std::alloc": "Global",
}


@dataclass(frozen=True)
class Names:
    """Values that are written as names."""

    type: str
    table: str
    about: str
    values: tuple[str, ...]

    def made(self, value: str, *, in_code: bool) -> str:
        """The variant with this name. A callee that is a kind of `import` has a phase."""
        held = PHASES.get(value, "") if self.type == "Callee" else ""
        if in_code:
            name = f"{self.type}::{'Import' if held else camel(value)}"
            return f"{name}(ImportPhase::{held})" if held else name
        name = f"{self.type}s.{'Import' if held else camel(value)}"
        return f"{name} ImportPhases.{held}" if held else name


@dataclass(frozen=True)
class Part:
    """A member that only nodes of one kind have. `rule` is `flag`, `default`, `optional` or `required`."""

    key: str
    rule: str
    reads: str
    default: str = ""
    default_in_code: str = ""

    @property
    def name(self) -> str:
        return snake(self.key)

    @property
    def is_literal(self) -> bool:
        return self.reads == "reads_literal"

    @property
    def reading(self) -> str:
        key = f'(codes "{self.key}") '
        return {
            "flag": f"member_or as_bool {key}false members",
            "default": f"member_or ({self.reads}) {key}{self.default} members",
            "optional": f"member_or (reads_optional {self.reads}) {key}None members",
            "required": f"member_at {in_parentheses(self.reads)} {key}members",
        }[self.rule]

    def read(self, found: str = "") -> str:
        """The call that reads the member, or the one that was found."""
        method, given = ("read_found", f'"{self.key}", {found}') if found else ("read", f'"{self.key}"')
        default = {"flag": "false", "default": self.default_in_code, "optional": "None"}.get(self.rule)
        return f"object.{method}_or({given}, {default})?" if default else f"object.{method}({given})?"


@dataclass(frozen=True)
class Kind:
    """A kind of node, with its members in the order of the schema."""

    name: str
    about: str
    parts: tuple[Part, ...]

    @property
    def reads(self) -> str:
        return f"reads_{snake(self.name)}"

    @property
    def read(self) -> list[Part]:
        """The members in the order in which they are read: a literal is the last."""
        return sorted(self.parts, key=lambda part: part.is_literal)

    @property
    def literal(self) -> Part | None:
        return next((part for part in self.parts if part.is_literal), None)

    @property
    def pattern(self) -> str:
        return " ".join([f"Kinds.{self.name}", *(part.name for part in self.parts)])

    @property
    def has_fields(self) -> bool:
        """Whether the members are fields with names."""
        return len(self.parts) > 1 or self.literal is not None

    def variable(self, part: Part) -> str:
        """The variable of a member in code. Where the kind has no fields, its name has that of the kind."""
        return part.name if self.has_fields else f"{snake(self.name)}_{part.name}"

    @property
    def made(self) -> str:
        names = [self.variable(part) for part in self.parts]
        if self.has_fields:
            return f"Kind::{self.name} {{ {', '.join(names)} }}"
        return f"Kind::{self.name}({names[0]})" if names else f"Kind::{self.name}"


def in_parentheses(term: str) -> str:
    return f"({term})" if " " in term else term


class Kinds:
    """The kinds of nodes and the names of a module document."""

    def __init__(self, document: Format) -> None:
        self.format = document
        self.names = [self.table(each) for each in document.titled() if literals(each) and "x-rattle" in each]
        found = [Kind(each["title"], each["description"], tuple(self.parts(each))) for each in document.nodes]
        self.kinds = found
        # The most frequent kind is the first that is looked for.
        self.looked_for = [found[-1], *found[:-1]]

    def table(self, schema: Schema) -> Names:
        return Names(schema["x-rattle"], schema["x-names"], schema["description"], tuple(literals(schema)))

    def parts(self, node: Schema) -> Iterator[Part]:
        for key, member in node["properties"].items():
            if key not in self.format.shared:
                yield self.part(key, member, is_required=key in node["required"])

    def part(self, key: str, member: Schema, *, is_required: bool) -> Part:
        if member.get("type") == "boolean":
            return Part(key, "flag", "as_bool")
        if "default" in member:
            names = self.table(member)
            made = (names.made(member["default"], in_code=in_code) for in_code in (False, True))
            return Part(key, "default", f"reads_named {names.table}", *made)
        others = [each for each in choices(member) if each.get("type") != "null"]
        reads = self.reads(others[0] if len(others) == 1 else member)
        return Part(key, "required" if is_required else "optional", reads)

    def reads(self, schema: Schema) -> str:
        """What reads a value of a type."""
        if "$ref" in schema:
            words = {"literal": "reads_literal", "jsString": "reads_string", "argument": "reads_arg"}
            return words[schema["$ref"].rpartition("/")[2]]
        if "items" in schema:
            return f"reads_array {self.reads(schema['items'])}"
        if literals(schema):
            return f"reads_named {self.table(schema).table}"
        return "as_str" if schema.get("type") == "string" else "reads_key"

    def files(self) -> Iterator[tuple[str, str]]:
        source = self.format.path
        aliases = [f"use {TYPES[name]}.{name}.TheVariants as {name}s" for name in TYPES]
        about = "Reading a kind of node, by its name and its members; and the names that a document may have."
        yield f"{CRATE}/specs/Kind.antt", antt_file(source, about, self.specs(), KNOWN, aliases)
        yield f"{CRATE}/specs/Names.antt", antt_file(
            source,
            "The names of the members that the objects of a document may have.",
            self.names_specs(),
            {**KNOWN, "ObjectKind": f"{MODULE}.specs.declared.names.ObjectKind"},
            [f"use {MODULE}.specs.declared.names.ObjectKind.TheVariants as ObjectKinds"],
        )
        known = {**KNOWN, **dict.fromkeys(self.defined(), f"{MODULE}.specs.Kind")}
        about = "The members of a node have the literal and the arguments of its kind, for each kind."
        yield f"{CRATE}/proofs/KindReadings.antt", antt_file(
            source, about, self.proofs(), known, aliases, is_proof=True
        )
        for kind in self.kinds:
            if len(kind.read) > READS:
                path = f"proofs/kind/read_{snake(kind.name)}"
                goal = f"use {MODULE}.{path.replace('/', '.')}.Goals as goal"
                text = antt_file(source, "", self.answers(kind), known, [goal], is_proof=True)
                yield f"{CRATE}/{path}/Answers.antt", text
        known |= dict.fromkeys(("comment_kinds",), f"{MODULE}.specs.Kind")
        yield f"{CRATE}/src/kind.rt", code_file(
            source, "Reading the kind of a node.", self.code(), {**known, "Kinds": LISTS}, self.imports()
        )
        about = "Reading values by their names."
        yield f"{CRATE}/src/named.rt", code_file(source, about, self.names_code(), known, self.imports())

    @staticmethod
    def imports() -> dict[str, str]:
        known = {name: module for module, names in CODE.items() for name in names.split()}
        return known

    def defined(self) -> list[str]:
        tables = [each.table for each in self.names]
        return [
            *tables,
            *(kind.reads for kind in self.kinds),
            "kinds",
            "reads_kind",
            "reads_kind_named",
            "literal_member",
        ]

    def specs(self) -> str:
        lines: list[str] = []
        for each in self.names:
            pairs = [f'(codes "{value}", {each.made(value, in_code=False)})' for value in each.values]
            lines += [*filled(f"{each.about} By name.", "-- ", COLUMNS)]
            lines += [f"abbrev pub {each.table} : List (List ℕ × {each.type})"]
            lines += [f"{each.table} =", "    " + "\n    ∷ ".join([*pairs, "[]"]), ""]
        lines += ["-- Reading each kind of node, from the members of the node."]
        lines += ["module _ (members : Members) where"]
        for kind in self.kinds:
            if kind.parts:
                lines += [f"  unfoldable pub {kind.reads} : Option Kind", f"  {kind.reads} = do"]
                lines += [*(f"    {part.name} ← {part.reading}" for part in kind.read)]
                lines += [f"    Some ({kind.pattern})", ""]
        readings = {kind: kind.reads if kind.parts else f"Some Kinds.{kind.name}" for kind in self.looked_for}
        pairs = [f'(codes "{kind.name}", {readings[kind]})' for kind in readings]
        lines += ["  -- The kinds by their names.", "  abbrev pub kinds : List (List ℕ × Option Kind)"]
        lines += ["  kinds =", "      " + "\n      ∷ ".join([*pairs, "[]"]), ""]
        lines += ["  -- The kind of this name.", "  unfoldable pub reads_kind_named : List ℕ → Option Kind"]
        lines += ["  reads_kind_named name = do", "    reading ← named kinds name", "    reading", ""]
        lines += ["  -- The kind that the member `kind` names.", "  unfoldable pub reads_kind : Option Kind"]
        lines += [
            "  reads_kind = do",
            '    name ← member_at as_str (codes "kind") members',
            "    reads_kind_named name",
            "",
        ]
        lines += ["-- The name of the member with the string literal, for the kinds that may have one."]
        lines += ["abbrev pub literal_member : Kind → List ℕ"]
        lines += [f'literal_member ({k.pattern}) = codes "{k.literal.key}"' for k in self.kinds if k.literal]
        return "\n".join([*lines, "literal_member _ = []"])

    def names_specs(self) -> str:
        own: dict[str, list[str]] = {}
        for kind in self.kinds:
            if kind.parts:
                own.setdefault(listed([part.key for part in kind.parts]), []).append(kind.name)
        pairs = [f'(codes "{name}", {names})' for names, kinds in own.items() for name in kinds]
        shared = " ∷ ".join(
            f'codes "{name}"' for name in ("kind", *(key for key in self.format.shared if key != "kind"))
        )
        objects = [each for each in self.format.titled() if "x-rattle" in each and "properties" in each]
        lines = ["-- The names of the members that only nodes of one kind have, by the name of the kind."]
        lines += ["abbrev pub own_names : List (List ℕ × List (List ℕ))", "own_names =", f"    {pairs[0]}"]
        lines += [*(f"    ∷ {pair}" for pair in pairs[1:]), "    ∷ []", ""]
        lines += ["-- The names of the members of a node of the kind of this name."]
        lines += ["abbrev pub names_of_node : List ℕ → List (List ℕ)"]
        lines += [f"names_of_node kind = {shared} ∷ unwrap_or (named own_names kind) []", ""]
        lines += [
            "-- The names of the members of an object of this kind.",
            "abbrev pub names_of : ObjectKind → List (List ℕ)",
        ]
        lines += [f"names_of ObjectKinds.{each['x-rattle']} = {listed([*each['properties']])}" for each in objects]
        return "\n".join([*lines, "names_of (ObjectKinds.Node name) = names_of_node name.now"])

    def proofs(self) -> str:
        lines = ["module _ (members : Members) (kind : Kind) where"]
        for kind in self.kinds:
            if kind.parts:
                lines += [*self.lemma(kind), ""]
        cases = [
            snake(k.name) if k.parts else f"has_none members Kinds.{k.name} kind refl refl" for k in self.looked_for
        ]
        lines += ["  pub has_parts : reads_kind members ≡ Some kind → HasParts members kind"]
        lines += ["  unfolding reads_kind reads_kind_named", "  has_parts is ="]
        lines += ['      let name = step (member_at as_str (codes "kind") members) _ kind is in']
        lines += ["      let reading = step (named (kinds members) name.0) (λ reading. reading) kind name.2 in"]
        lines += ["      one_of members kind (kinds members) name.0 reading.0"]
        lines += [f"      ({', ('.join(cases)}, tt{')' * len(cases)}", "      reading.1 reading.2"]
        return "\n".join(lines)

    @staticmethod
    def lemma(kind: Kind) -> list[str]:
        """The members that were read have the literal of the kind, and its arguments."""
        name = snake(kind.name)
        lines = [f"  {name} : {kind.reads} members ≡ Some kind → HasParts members kind", f"  unfolding {kind.reads}"]
        lines += [f"  {name} is ="]
        before = "is"
        for part in kind.read:
            lines += [f"      let {part.name} = step ({part.reading}) _ kind {before} in"]
            before = f"{part.name}.2"
        last = kind.read[-1]
        if last.is_literal:
            lemma = "has_literal" if last.rule == "required" else "has_optional"
            return [*lines, f"      {lemma} members _ kind {last.name}.0 refl refl {last.name}.1 {last.name}.2"]
        if last.reads.endswith("reads_arg"):
            return [*lines, f"      has_args members _ kind {last.name}.0 refl refl {last.name}.1 {last.name}.2"]
        return [*lines, f"      has_none members _ kind refl refl {last.name}.2"]

    @staticmethod
    def answers(kind: Kind) -> str:
        reads = [f"goes_on _ _ c.in_ok-{part.name}.{part.name} _ c.in_ok-{part.name}.ensures" for part in kind.read]
        chain = "\n    (".join([*reads[:-1], f"{reads[-1]} refl"]) + ")" * (len(reads) - 1)
        return f"pub returns : goal.returns\nunfolding {kind.reads}\nreturns c =\n    {chain}"

    def code(self) -> str:
        arms = ""
        for kind in self.looked_for:
            arms += f'        "{kind.name}" => ' + (
                f"read_{snake(kind.name)}(object),\n" if kind.parts else f"Ok({kind.made}),\n"
            )
        head = f"""/// Reads the kind of a node from the members of the node. `found` is the member `kind`.
#[tactic(auto, {READING}, unfolding(crate::specs::Kind::reads_kind))]
pub fn read_kind(object: &ObjectReader<Document>, found: Option<Element<'_>>) -> Result<Kind, ReadError>
    requires {{ option_map data_of found ≡ get_member (codes "kind") (readable object.now) }}
    ensures {{ IsReadResult (value_of object.now) (reads_kind (readable object.now)) result }}
{{
    let name = object.read_found_str("kind", found)?;
    read_kind_named(object, name)
}}

/// Reads the kind of this name, which is the member `kind`.
#[tactic(auto, {READING}, unfolding(crate::specs::Kind::reads_kind_named, crate::specs::Named::named))]
fn read_kind_named(object: &ObjectReader<Document>, name: &str) -> Result<Kind, ReadError>
    requires {{ get_member (codes "kind") (readable object.now) ≡ Some (string name.now) }}
    ensures read {{ IsReadResult (value_of object.now) (reads_kind_named (readable object.now) name.now) result }}
    ensures expected {{ named (kinds (readable object.now)) name.now ≡ None
        → IfErr result (Expects (NameIn Kinds)) }}
{{
    match name {{
{arms}        _ => Err(object.member_error("kind", Expected::NameIn(NameList::Kinds))),
    }}
}}
"""
        return "\n".join([head, *(self.reader(kind) for kind in self.kinds if kind.parts)])

    @staticmethod
    def reader(kind: Kind) -> str:
        """The function that reads the members of a kind. Many members are looked for in one pass."""
        lines, found = [], []
        if len(kind.parts) >= FEW and any(part.rule == "required" for part in kind.parts):
            order = {"required": 0, "flag": 1}
            found = sorted(kind.parts, key=lambda part: order.get(part.rule, 2))
            keys = ", ".join(f'"{each.key}"' for each in found)
            lines += [f"let mut found = [None; {len(found)}];", f"object.find(&[{keys}], &mut found);"]
        # A name for each element of `found` would double the time of the proof.
        elements = {part.name: f"found[{index}]" for index, part in enumerate(found)}
        lines += [f"let {kind.variable(part)} = {part.read(elements.get(part.name, ''))};" for part in kind.read]
        name = snake(kind.name)
        return (
            f"/// Reads a node of the kind `{kind.name}`.\n"
            f"#[tactic(auto, {READING}, unfolding(crate::specs::Kind::{kind.reads}))]\n"
            f"fn read_{name}(object: &ObjectReader<Document>) -> Result<Kind, ReadError>\n"
            f"    ensures {{ IsReadResult (value_of object.now) ({kind.reads} (readable object.now)) result }}\n"
            "{\n" + "".join(f"    {line}\n" for line in lines) + f"    Ok({kind.made})\n}}\n"
        )

    def names_code(self) -> str:
        return "\n".join(map(self.names_reader, self.names))

    @staticmethod
    def names_reader(names: Names) -> str:
        named = f"{snake(names.type)}_named"
        arms = "".join(f'        "{value}" => Ok({names.made(value, in_code=True)}),\n' for value in names.values)
        return f"""/// Reads a value by its name.
impl FromJson<Document> for {names.type} {{
    ghost reads = {{ reads_named {names.table} }};

    #[tactic(auto, {READING}, unfolding(crate::specs::Named::reads_named))]
    fn from_json(alloc: Global, value: Element<'_>) -> Result<{names.type}, ReadError> {{
        let name = read_str(alloc, value)?;
        {named}(alloc, name)
    }}
}}

/// Returns the value of this name.
#[tactic(auto, unfolding(crate::specs::Named::named))]
fn {named}(alloc: Global, name: &str) -> Result<{names.type}, ReadError>
    ensures read {{ IsReadResult (string name.now) (named {names.table} name.now) result }}
    ensures expected {{ IfErr result (ExpectsNameIn {names.table}) }}
{{
    match name {{
{arms}        _ => Err(ReadError::expected(alloc, Expected::NameIn(NameList::{camel(names.table)}))),
    }}
}}
"""


def listed(names: list[str]) -> str:
    return " ∷ ".join([*(f"codes {json.dumps(name)}" for name in names), "[]"])


def files(document: Format) -> dict[str, str]:
    return dict(Kinds(document).files())


def blocks(document: Format, _: Format, __: Format) -> Iterator[Block]:
    """The names of the members with the literals of the kinds, in the report."""
    members: dict[str, list[str]] = {}
    for kind in Kinds(document).kinds:
        if kind.literal:
            members.setdefault(kind.literal.key, []).append(f"Kind::{kind.name} {{ .. }}")
    lines = [f'        {" | ".join(members[key])} => "{key}",' for key in members]
    yield f"{CRATE}/src/report/place.rt", "match kind {", [*lines, '        _ => "",']
