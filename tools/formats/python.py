"""Types in Python: those of JSON, and frozen dataclasses with the same names for what `analyze` prints."""

import json
import re
from collections.abc import Iterable

from formats.language import Language, filled
from formats.schema import Format, Schema, literals

PACKAGE = "bindings/python/src/modinfo"
WIDTH = 120
# A class with more than its fields, and the class that has it.
MORE = {"DynamicDependency": "WithArgument"}


def docstring(text: str, indent: str = "    ") -> list[str]:
    """The lines of a docstring: of a class or, after a field or another type, the one that editors show for it."""
    return filled(f'"""{text}"""', indent, WIDTH)


class Python(Language):
    FILES = {
        "document": f"{PACKAGE}/document.py",
        "module-info": f"{PACKAGE}/information.py",
        "report": f"{PACKAGE}/report.py",
    }
    WORDS = {
        "integer": "int",
        "string": "str",
        "boolean": "bool",
        "null": "None",
        "array": "list[{}]",
        "object": "dict[str, {}]",
        "pair": "list[{}]",
    }
    COMMENT = "#"
    FORWARD = '"{}"'

    def module(self) -> str:
        """The text with its imports, and two empty lines around a class."""
        head, text = re.sub(r"\n{4,}", r"\n\n\n", super().module()).rstrip().split("\n", 1)
        names = [name for name in ("Literal", "TypedDict", "final") if name in text]
        return f"{head}\n\nfrom typing import {', '.join(names)}\n{text}\n"

    def alternatives(self, schema: Schema) -> list[str]:
        values = super().alternatives(schema)
        return [f"Literal[{', '.join(values).replace('true', 'True')}]"] if literals(schema) else values

    def declaration(self, name: str, schema: Schema) -> list[str]:
        if "properties" in schema:
            return self.class_of(name, schema)
        return [self.alias(name, schema), *docstring(schema["description"], "")]

    def alias(self, name: str, schema: Schema) -> str:
        union = self.alternatives(schema)
        line = f"{name} = {' | '.join(union)}"
        if len(line) <= WIDTH:
            return line
        if literals(schema):
            return line.replace("[", "[\n    ").replace(", ", ",\n    ").replace("]", ",\n]")
        return f"{name} = (\n    " + "\n    | ".join(union) + "\n)"

    def class_of(self, name: str, schema: Schema) -> list[str]:
        """A class; those of its members that are never missing are in one before it, as Python 3.10 needs it."""
        members, required = schema["properties"], schema.get("required", [])
        needed = [member for member in members if member in required]
        others = [member for member, part in members.items() if part and member not in required]
        lines, base = [""], "TypedDict"
        if needed and others:
            base = f"_{name}"
            lines += [f"class {base}(TypedDict):", *self.members(schema, needed)[1:], "", ""]
        lines += ["@final"] * (False in members.values())
        lines += [f"class {name}({base}{', total=False' * bool(others)}):", *docstring(schema["description"])]
        return [*lines, *self.members(schema, others or needed), ""]

    def members(self, schema: Schema, names: Iterable[str]) -> list[str]:
        lines = []
        for name in names:
            part = schema["properties"][name]
            lines += ["", f"    {name}: {self.value(part)}", *docstring(self.format.about(part))]
        return lines


class PythonValues(Python):
    """Dataclasses of modinfo._value, which reads and writes their JSON. A tag is a field that no call sets."""

    FILES = {"module-info": f"{PACKAGE}/values.py"}
    WORDS = {**Python.WORDS, "array": "tuple[{}, ...]", "object": "Mapping[str, {}]"}

    def __init__(self, of: Format) -> None:
        super().__init__(of)
        self.key = "x-python"
        # Names of texts, which the types of JSON declare too.
        self.declared |= {self.name(schema) for schema in of.titled() if literals(schema)}

    def module(self) -> str:
        kinds = ", ".join(sorted(self.declared))
        head, _, text = super().module().split("\n", 2)
        text = text.split("\n", 1)[1]
        imports = ["", "from collections.abc import Mapping", "from dataclasses import dataclass, field"]
        imports += ["from typing import Literal", "", "from ._frozen import freeze"]
        imports += [f"from ._value import Pair, Value, {', '.join(MORE.values())}"]
        return "\n".join([head, *imports, f"from .information import {kinds}", text])

    def declaration(self, name: str, schema: Schema) -> list[str]:
        if "prefixItems" in schema:
            fields = [f"    {part['x-name']}: {self.value(part)}" for part in schema["prefixItems"]]
            return [*self.head(f"{name}(Pair)", ", order=True"), *docstring(schema["description"]), "", *fields, ""]
        return super().declaration(name, schema)

    def head(self, name: str, options: str = "") -> list[str]:
        return ["", f"@dataclass(frozen=True, slots=True{options})", f"class {name}:"]

    def class_of(self, name: str, schema: Schema) -> list[str]:
        """A dataclass, whose docstring has what is known of its fields: `help` shows no other."""
        members, required = schema["properties"].items(), schema.get("required", [])
        about, fields, frozen = [], [], []
        for member, part in sorted(members, key=lambda each: ("const" not in each[1], each[0] not in required)):
            text = self.format.whole(part)["description"]
            field = self.field(member, part, is_required=member in required)
            own = field.partition(":")[0]
            about += filled(f"{own}: {text}", "        ", WIDTH, " " * 12)
            fields += ["", f"    {field}", *docstring(text)]
            frozen += [f'        freeze(self, "{own}")'] * ("Mapping[" in field)
        more = ", ".join(filter(None, [MORE.get(name), "Value"]))
        text = ['    """' + schema["description"], "", "    Attributes:", *about, '    """']
        if frozen:
            fields += ["", "    def __post_init__(self) -> None:", *frozen]
        return [*self.head(f"{name}({more})"), *text, *fields, ""]

    def field(self, member: str, part: Schema, *, is_required: bool) -> str:
        name = re.sub(r"([A-Z])", r"_\1", member).lower()
        value = self.value(part)
        if "const" in part:
            return f"{name}: {value} = field(default={json.dumps(part['const'])}, init=False)"
        if is_required:
            return f"{name}: {value}"
        default = self.format.whole(part).get("default")
        if default is None:
            return f"{name}: {value} | None = None"
        return f"{name}: {value} = {tuple(default) if isinstance(default, list) else default!r}".replace("'", '"')
