"""The types of a schema as definitions, readers, writers and proofs in Rattle see them. `x-rattle` is the word from
which names are made, as `info` of `json_of_info`. codec_specs.py, codec_code.py, codec_proofs.py and codec_answers.py
write the files."""

import re
from collections.abc import Iterator
from dataclasses import dataclass, field
from functools import cached_property

from sources import ROOT, BuildError

from formats.schema import Format, Schema, choices, literals

# The test of a value that is left out, by the word of its type.
TESTS = {"dynamic_kind": "is_plain_import"}


def snake(name: str) -> str:
    return re.sub(r"(?<!^)([A-Z])", r"_\1", name).lower()


def camel(name: str) -> str:
    return "".join(part[:1].upper() + part[1:] for part in name.split("_"))


@dataclass(frozen=True)
class Value:
    """How a value is written (a function, or two around the value), read, and proved."""

    json: str
    reads: str
    held: str = ""
    # The lemmas that the value is read back, and that its JSON has no float. Empty where both are by computation.
    back: str = "refl"
    no_float: str = ""

    def written(self, value: str) -> str:
        return f"{self.json[:-1]} {value})" if self.json.endswith(")") else f"{self.json} {value}"

    def is_back(self, value: str, held: str) -> str:
        return "refl" if self.back == "refl" else f"({self.back} {value}{f' {held}' * bool(self.held)})"


STRING = Value("string", "as_str")
FLAG = Value("if_true", "as_bool", back="flag_back", no_float="no_float-if_true")
RANGE = Value("json_of_range", "reads_range", "IsHeldRange", "range_back")


@dataclass(frozen=True)
class Field:
    """A member of an object, and the field that has it. `rule` is `flag`, `list`, `optional`, `default`, `required`,
    `tag`, or `base` for the members of another type."""

    rule: str
    key: str
    name: str
    value: Value = STRING
    # The value that is left out: its type, and the name of the variant.
    type: str = ""
    word: str = ""
    default: str = ""
    members: "tuple[Field, ...]" = ()

    @property
    def test(self) -> str:
        return TESTS.get(self.word, f"is_{snake(self.default)}")


@dataclass(frozen=True)
class Record:
    """A struct, or a variant with fields: its members in the order of the schema."""

    fields: tuple[Field, ...]
    # What is before the name of a field.
    path: str
    constructor: str = ""

    def of(self, member: Field) -> str:
        return self.path + member.name

    @property
    def read(self) -> list[Field]:
        return [each for each in self.fields if each.rule != "tag"]

    @property
    def held(self) -> list[Field]:
        return [each for each in self.read if each.value.held]

    @property
    def written(self) -> list[tuple[str, Field]]:
        """The members in the order in which they are written, each with the expression of its value."""
        found = []
        for each in self.fields:
            if each.rule == "base":
                found += [(f"{self.of(each)}.{member.name}", member) for member in each.members]
            else:
                found.append((self.of(each), each))
        return sorted(found, key=lambda pair: pair[1].key)


@dataclass(frozen=True)
class Codec:
    """A type with generated readers and writers: names, a union of objects with tags, or an object."""

    word: str
    type: str
    module: str
    about: str
    schema: Schema
    names: tuple[str, ...] = ()
    default: str = ""
    record: Record | None = None
    variants: "tuple[Variant, ...]" = ()
    # Whether the type is read as a value, or only from the members of an object that has its tag.
    is_value: bool = True
    is_base: bool = False
    is_optional: bool = False
    is_held: bool = False

    @property
    def held(self) -> str:
        return held_name(self.word) if self.is_held else ""

    @property
    def letter(self) -> str:
        return self.word[0]

    @property
    def alias(self) -> str:
        return camel(self.word)

    @property
    def is_apart(self) -> bool:
        """Whether the members have a definition and a reader of their own."""
        return self.is_base or self.record is not None and any(each.rule == "base" for each in self.record.fields)

    @property
    def reads(self) -> str:
        return f"{self.word}_of" if self.is_apart else f"reads_{self.word}"


@dataclass(frozen=True)
class Variant:
    """A variant of a union: its tag, and the type that has its members, or its own members."""

    tag: str
    name: str
    codec: Codec | None = None
    record: Record | None = None


def held_name(word: str) -> str:
    return f"{'Are' if word.endswith('s') else 'Is'}Held{camel(word)}"


@dataclass
class Codecs:
    """The types of a schema whose readers and writers are generated, in one crate. `folder` has the types, `whole`
    is the type that is read as a whole."""

    format: Format
    crate: str
    folder: str
    whole: str
    _found: dict[int, Codec] = field(default_factory=dict)

    @cached_property
    def modules(self) -> dict[str, str]:
        """The file of each type."""
        files = sorted((ROOT / "crates" / self.crate / "src" / self.folder).glob("*.rt"))
        return {
            name: path.stem for path in files for name in re.findall(r"pub (?:struct|enum) (\w+)", path.read_text())
        }

    @cached_property
    def all(self) -> list[Codec]:
        schemas = [each for each in self.format.titled() if self.is_generated(each)]
        return [self.codec(each) for each in schemas]

    def is_generated(self, schema: Schema) -> bool:
        if "x-rattle" not in schema or self.type(schema) not in self.modules or "x-variants" in schema:
            return False
        return bool(literals(schema) or schema.get("properties") or choices(schema))

    @cached_property
    def by_hand(self) -> list[Schema]:
        """The types whose readers and writers aren't generated: values of several JSON types."""
        return [each for each in self.format.titled() if "x-rattle" in each and "x-variants" in each]

    @staticmethod
    def type(schema: Schema) -> str:
        return str(schema.get("x-rust") or schema["title"])

    def codec(self, schema: Schema) -> Codec:
        if id(schema) not in self._found:
            self._found[id(schema)] = self._codec(schema)
        return self._found[id(schema)]

    def _codec(self, schema: Schema) -> Codec:
        word, name = schema["x-rattle"], self.type(schema)
        record = Record(tuple(self.fields(schema)), f"{word[0]}.") if "properties" in schema else None
        tagged = [part for each in self.format.titled() for part in map(self.format.resolved, choices(each))]
        bases = {each.get("x-extends") for each in self.format.definitions.values()}
        key = next((key for key, each in self.format.definitions.items() if each is schema), "")
        options = [member for each in self.format.titled() for member in self.options(each)]
        return Codec(
            word,
            name,
            self.modules[name],
            schema["description"],
            schema,
            tuple(literals(schema)),
            schema.get("default", ""),
            record,
            tuple(self.variants(schema)) if choices(schema) else (),
            not any(schema is each for each in tagged),
            key in bases,
            any(schema is each for each in options),
            self.is_held(schema),
        )

    def options(self, schema: Schema) -> Iterator[Schema]:
        """The types of members that may be missing."""
        for key, member in schema.get("properties", {}).items():
            if key not in schema.get("required", []) and "$ref" in member:
                yield self.format.resolved(member)

    def variants(self, schema: Schema) -> Iterator[Variant]:
        for part in map(self.format.resolved, choices(schema)):
            [tag] = [each["const"] for each in part["properties"].values() if "const" in each]
            if "x-rattle" in part:
                yield Variant(tag, camel(tag), self.codec(part))
            else:
                yield Variant(tag, camel(tag), None, Record(tuple(self.fields(part)), ""))

    def fields(self, schema: Schema) -> Iterator[Field]:
        base = self.format.definitions.get(schema.get("x-extends", ""), {})
        if base:
            members = tuple(self.fields(base))
            yield Field("base", "", base["x-rattle"], self.value(base), members=members)
        for key, member in schema["properties"].items():
            if key not in base.get("properties", {}):
                yield self.field(key, member, is_required=key in schema.get("required", []))

    def field(self, key: str, member: Schema, *, is_required: bool) -> Field:
        whole = self.format.resolved(member)
        name = snake(key) if "title" in member else member.get("x-rust", snake(key))
        if "const" in member:
            return Field("tag", key, member["const"])
        if member.get("type") == "boolean":
            return Field("flag", key, name, FLAG)
        if member.get("type") == "array":
            return Field("list", key, name, self.value(self.format.resolved(member["items"])))
        value = self.value(whole)
        if is_required:
            return Field("required", key, name, value)
        if "default" in whole or "x-none" in whole:
            default = camel(whole.get("x-none", whole.get("default")))
            return Field("default", key, name, value, self.type(whole), whole["x-rattle"], default)
        return Field("optional", key, name, value)

    def value(self, schema: Schema) -> Value:
        if schema.get("title") == "PositionRange":
            return RANGE
        if schema.get("type") == "string":
            return STRING
        if "x-rattle" not in schema:
            raise BuildError(f"{self.format.path}: {schema.get('title', schema)} has no name in Rattle")
        word = schema["x-rattle"]
        held = held_name(word) if self.is_held(schema) else ""
        if literals(schema) and self.type(schema) in self.modules:
            return Value(f"string ({word}_name)", f"reads_{word}", "", f"{word}_back", f"{word}_no_float")
        return Value(f"json_of_{word}", f"reads_{word}", held, f"{word}_back", f"{word}_no_float")

    def is_held(self, schema: Schema) -> bool:
        """Whether something holds of each value that exists at run time: numbers fit, keys ascend."""
        schema = self.format.resolved(schema)
        if schema.get("type") == "integer" or "additionalProperties" in schema and schema["additionalProperties"]:
            return True
        parts = [*choices(schema), *schema.get("properties", {}).values(), *schema.get("prefixItems", [])]
        return any(self.is_held(part) for part in [*parts, schema.get("items")] if part)
