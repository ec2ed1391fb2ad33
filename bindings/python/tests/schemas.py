"""Types of Python, and types of the schemas in docs/, in one form."""

import dataclasses
import json
import re
from collections.abc import Mapping
from types import NoneType, UnionType
from typing import Any, Literal, Union, get_args, get_origin, get_type_hints, is_typeddict

from repository import ROOT

NAMES = {str: "string", int: "integer", bool: "boolean", NoneType: "null"}


class Schema:
    """A schema, and its types in the form that `typed` returns."""

    def __init__(self, name: str) -> None:
        self.whole = json.loads((ROOT / f"docs/{name}.schema.json").read_text())

    def described(self, schema: Any = None) -> Any:
        """The type that the schema, or a part of it, describes."""
        schema = self._resolved(self.whole if schema is None else schema)
        for several in "oneOf", "anyOf":
            if several in schema:
                return frozenset().union(*(self.described(part) for part in schema[several]))
        if "const" in schema or "enum" in schema:
            return frozenset(schema.get("enum") or [schema["const"]])
        if schema["type"] == "array":
            items = schema["items"] or schema["prefixItems"][0]
            assert all(self.described(part) == self.described(items) for part in schema.get("prefixItems", []))
            return frozenset([("array", self.described(items))])
        if schema["type"] != "object":
            return frozenset(("type", name) for name in listed(schema["type"]))
        if "properties" not in schema:
            return frozenset([("members", self.described(schema["additionalProperties"]))])
        required = set(schema.get("required", []))
        members = {
            (name, name in required, self.described(part))
            for name, part in schema["properties"].items()
            if part is not False
        }
        return frozenset([("object", frozenset(members))])

    def definition(self, name: str) -> Any:
        return self.described(self.whole["$defs"][name])

    def _resolved(self, schema: Any) -> Any:
        while "$ref" in schema:
            schema = self.whole["$defs"][schema["$ref"].removeprefix("#/$defs/")]
        return schema


def listed(names: str | list[str]) -> list[str]:
    return [names] if isinstance(names, str) else names


def typed(annotation: Any) -> Any:
    origin, parts = get_origin(annotation), get_args(annotation)
    if origin in (UnionType, Union):
        return frozenset().union(*(typed(part) for part in parts))
    if origin is Literal:
        return frozenset(parts)
    if origin in (list, tuple):
        return frozenset([("array", typed(parts[0]))])
    if origin in (dict, Mapping):
        return frozenset([("members", typed(parts[1]))])
    if dataclasses.is_dataclass(annotation):
        return frozenset([typed_dataclass(annotation)])
    if not is_typeddict(annotation):
        return frozenset([("type", NAMES[annotation])])
    required = annotation.__required_keys__
    members = {(name, name in required, typed(part)) for name, part in get_type_hints(annotation).items()}
    return frozenset([("object", frozenset(members))])


def typed_dataclass(annotation: Any) -> Any:
    """An array for a pair, an object for another dataclass: its fields are members in camel case, and no call sets a
    tag."""
    hints = get_type_hints(annotation)
    if annotation.__base__.__name__ == "Pair":
        [part] = set(map(typed, hints.values()))
        return "array", part
    members = set()
    for each in dataclasses.fields(annotation):
        required = not each.init or each.default is dataclasses.MISSING
        part = typed(hints[each.name]) - ({("type", "null")} if not required else set())
        members.add((re.sub("_(.)", lambda found: found[1].upper(), each.name), required, part))
    return "object", frozenset(members)
