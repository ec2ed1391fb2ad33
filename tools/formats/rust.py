"""Types in Rust for serde, the faults, and media types."""

import re
from collections.abc import Iterator
from dataclasses import dataclass

from formats.blocks import Block
from formats.language import Language, filled
from formats.schema import Format, Schema, choices, literals

CRATE = "bindings/rust/src"
WIDTH = 100
RENAME = 'rename_all = "camelCase"'
TRAITS = "Clone, Debug, PartialEq, Eq, Deserialize, Serialize"


@dataclass(frozen=True)
class Variant:
    """A variant of an enum, with its comment, and what it holds as the text after its name."""

    about: str
    name: str
    held: str = ""


class Rust(Language):
    FILES = {
        "document": f"{CRATE}/document.rs",
        "module-info": f"{CRATE}/module_info.rs",
        "report": f"{CRATE}/report.rs",
    }
    # The types of a format that another file declares, and that file.
    DECLARED = {
        "docs/document.schema.json": {"MediaType": "media_type"},
        "docs/report.schema.json": {"ByteRange": "document", "Fault": "fault"},
    }
    WORDS = {
        "integer": "usize",
        "string": "String",
        "boolean": "bool",
        "array": "Vec<{}>",
        "object": "BTreeMap<String, {}>",
        "pair": "{{ {1} }}",
    }

    # The types that a later version may add variants or fields to: enums of names, and all that only the library makes.
    # deno_graph's structs are made by their fields, and so have no others.
    GROWING = {
        *("StaticDependencyKind", "DynamicDependencyKind", "NodeKind", "Callee", "ImportPhase"),
        *("ReportWarning", "ValidReport", "TextPlace", "FaultReport"),
    }

    def __init__(self, of: Format) -> None:
        super().__init__(of)
        self.declared |= {*self.DECLARED.get(of.path, {})}

    def attributes(self, name: str, traits: str) -> list[str]:
        return [f"#[derive({traits})]", *["#[non_exhaustive]"] * (name in self.GROWING)]

    def module(self) -> str:
        """The text with the imports that it needs."""
        head, text = super().module().split("\n", 1)
        declared = self.DECLARED.get(self.format.path, {})
        helpers = ", ".join(name for name in ("is_default", "pair") if re.search(rf"\b{name}\b", text))
        helpers = f"{{{helpers}}}" if ", " in helpers else helpers
        imports = [f"use crate::{declared[name]}::{name};" for name in declared]
        imports += [f"use crate::information::{helpers};", "use serde::{Deserialize, Serialize};"]
        imports += ["use std::collections::BTreeMap;"] * ("BTreeMap<" in text)
        return "\n".join([head, "", *sorted(imports), text])

    def name(self, schema: Schema) -> str:
        """A kind of node is a variant, and no type."""
        return "" if any(schema is node for node in self.format.nodes) else super().name(schema)

    def alternatives(self, schema: Schema) -> list[str]:
        return ["bool"] if literals(schema) == [True] else super().alternatives(schema)

    def plain(self, schema: Schema) -> str:
        return "u16" if schema.get("maximum") == 65535 else super().plain(schema)

    def declaration(self, name: str, schema: Schema) -> list[str]:
        if schema is self.format.node:
            return self.node(name)
        if "prefixItems" in schema:
            comment = filled(schema["description"], "    /// ", WIDTH)
            return ["pair! {", *comment, f"    {name} {self.plain(schema)}", "}"]
        if "properties" in schema:
            form, options, body = "struct", [RENAME], self.fields(schema, "    pub ")
            traits = TRAITS + ", Default" * ("required" not in schema)
        else:
            form, options, body = "enum", [RENAME, *self.representation(schema)], self.variant_lines(schema)
            traits = "Copy, " * bool(literals(schema)) + TRAITS + ", Default" * ("    #[default]" in body)
        head = [*filled(schema["description"], "/// ", WIDTH), *self.attributes(name, traits)]
        return [*head, f"#[serde({', '.join(options)})]", f"pub {form} {name} {{", *body, "}"]

    def node(self, name: str) -> list[str]:
        """What all nodes have, and the enum of their kinds."""
        shared = {key: member for key, member in self.format.shared.items() if key != "kind"}
        schema = {"required": self.format.node["required"], "properties": shared}
        about = filled(self.format.node["description"], "/// ", WIDTH)
        lines = [*about, f"#[derive({TRAITS})]", f"pub struct {name} {{", *self.fields(schema, "    pub ")]
        lines += ["    /// The kind, with its members.", "    #[serde(flatten)]", "    pub kind: NodeKind,", "}", ""]
        lines += ["/// The kind of a node, with the members that nodes of this kind have."]
        lines += self.attributes("NodeKind", TRAITS)
        lines += ['#[serde(tag = "kind")]', "pub enum NodeKind {"]
        for node in self.format.nodes:
            own = {key: member for key, member in node["properties"].items() if key not in self.format.shared}
            fields = self.fields({**node, "properties": own}, "        ")
            lines += filled(node["description"], "    /// ", WIDTH)
            lines += [f"    #[serde({RENAME})]"] * bool(fields)
            lines += [f"    {node['title']} {{", *fields, "    },"] if fields else [f"    {node['title']},"]
        return [*lines, "}"]

    def representation(self, schema: Schema) -> list[str]:
        """Serde's options for how an enum is told from its JSON."""
        if "x-variants" not in schema:
            return ['tag = "type"'] * bool(choices(schema))
        return [] if any(map(literals, choices(schema))) else ["untagged"]

    def fields(self, schema: Schema, before: str) -> list[str]:
        """The fields of an object, without its tag; one of them has the members that it repeats."""
        extended = schema.get("x-extends", "")
        base = self.format.definitions.get(extended, {"properties": {"": False}})
        required = {extended, *schema.get("required", [])}
        lines = []
        for name, member in {extended: base, **schema["properties"]}.items():
            if member and name not in base["properties"] and not isinstance(member.get("const"), str):
                options = ["flatten"] * (name == extended)
                lines += self.field(name, member, before, options, is_optional=name not in required)
        return lines

    def field(self, name: str, member: Schema, before: str, options: list[str], *, is_optional: bool) -> list[str]:
        snake = re.sub(r"([A-Z])", r"_\1", name).lower()
        field = snake if "title" in member else member.get("x-rust", snake)
        value = self.value(self.without_null(member))
        if is_optional:
            options = ["default", 'skip_serializing_if = "is_default"', *options]
            value = value if self.has_default(member) else f"Option<{value}>"
        options += [f'rename = "{name}"'] * (field != snake)
        indent = before.replace("pub ", "")
        lines = filled(self.format.about(member), f"{indent}/// ", WIDTH)
        lines += [f"{indent}#[serde({', '.join(options)})]"] * bool(options)
        return [*lines, f"{before}{field}: {value},"]

    def without_null(self, member: Schema) -> Schema:
        """The type of a member for which null stands where there is none."""
        whole = self.format.resolved(member)
        others = [each for each in choices(whole) if each.get("type") != "null"]
        return others[0] if len(others) == 1 and "title" not in whole else member

    def has_default(self, member: Schema) -> bool:
        """Whether a missing member has a value: its default, or no elements."""
        whole = self.format.whole(member)
        return bool({"default", "x-none"} & whole.keys() or whole.get("items"))

    def variant_lines(self, schema: Schema) -> list[str]:
        lines = []
        for variant in self.variants(schema):
            lines += filled(variant.about, "    /// ", WIDTH)
            lines += ["    #[default]"] * (variant.name in (schema.get("default"), schema.get("x-none")))
            lines += [f"    #[serde({RENAME})]"] * variant.held.endswith("}")
            lines += [f"    {variant.name[0].upper()}{variant.name[1:]}{variant.held},"]
        return lines

    def variants(self, schema: Schema) -> Iterator[Variant]:
        """Those of an enum: words, named values, or tagged objects."""
        yield from (Variant(f"`{word}`", word) for word in literals(schema))
        yield from map(self.named_value, schema.get("x-variants", []), choices(schema))
        if "x-none" in schema:
            yield Variant("The member is missing.", schema["x-none"])
        if "x-variants" not in schema:
            yield from map(self.tagged_object, map(self.format.resolved, choices(schema)))

    def named_value(self, name: str, schema: Schema) -> Variant:
        """A literal and null hold nothing, another type is held as a whole."""
        schema = self.format.resolved(schema)
        if held := self.name(schema):
            return Variant(schema["description"], name, f"({held})")
        [value] = [each for each in schema.get("properties", {"": schema}).values() if each]
        holds_nothing = literals(value) or value.get("type") == "null"
        return Variant(value["description"], name, "" if holds_nothing else f"({self.value(value)})")

    def tagged_object(self, schema: Schema) -> Variant:
        """Holds a named type: its own, or the one whose members it repeats where it has no others; else its fields."""
        [tag] = [each["const"] for each in schema["properties"].values() if each and "const" in each]
        repeated, fields = schema.get("x-extends", ""), self.fields(schema, "        ")
        # A field of repeated members has three lines.
        has_others = len(fields) != 3 or not repeated
        if name := self.name(schema if has_others else self.format.definitions[repeated]):
            return Variant(schema["description"], tag, f"({name})")
        return Variant(schema["description"], tag, "\n".join([" {", *fields, "    }"]) if fields else "")


def blocks(document: Format, _: Format, report: Format) -> Iterator[Block]:
    """The variants of the faults and of the media types, with the numbers that these have in C."""
    faults = report.definitions["documentFault"]["x-values"]
    yield f"{CRATE}/fault.rs", "faults", [f"    /// {faults[name]}\n    {name}," for name in faults]
    names = document.root["properties"]["mediaType"]["enum"]
    variants = [f"    /// `{name}`\n    {name} = {number}," for number, name in enumerate(names, 1)]
    yield f"{CRATE}/media_type.rs", "media types", variants
