"""The JSON schemas in docs/, as tools/generate_formats reads them. Besides the keywords of JSON Schema:

- `title` names a type. `x-typescript`, `x-python` and `x-rust` are its name in one language, or null without
  a type there. `x-rattle` is in module-info.schema.json the word from which its definitions in Rattle are
  named; in document.schema.json its `ObjectKind`, or the type of an enum, of which `x-names` is the table.
- `x-name` names a part of a tuple, `x-variants` the variants of an enum in Rust, `x-none` that of a missing
  member, and `x-rust` in a member without a title its field. An object repeats the members of `x-extends`.
- `x-values` says what each value of an `enum` means.
- `x-order` is the order in which members are written. With `x-omit-defaults` a default is left out.
- A kind of node has `x-children` and, if it may be a dependency, `x-dependency` (when it is one),
  `x-kind`, and `x-inside`: it comes `before` or `after` what is inside, or is `closed`, not read.
"""

import json
from collections.abc import Iterator
from typing import Any

from sources import ROOT

Schema = dict[str, Any]


class Format:
    """A schema in docs/. In it each kind of node has the members of all nodes, and `node` is their union."""

    def __init__(self, name: str) -> None:
        self.path = f"docs/{name}.schema.json"
        self.root: Schema = json.loads((ROOT / self.path).read_text())
        self.definitions: dict[str, Schema] = self.root["$defs"]
        self.node: Schema = self.definitions.get("node", {})
        self.shared: Schema = self.node.pop("properties", {})
        self.nodes: list[Schema] = []
        for part in self.node.get("allOf", []):
            node = self.resolved(part["then"])
            properties = dict(self.shared)
            for member, schema in {**part["if"]["properties"], **node.get("properties", {})}.items():
                properties[member] = {**properties.get(member, {}), **schema}
            node["required"] = [*self.node["required"], *node.get("required", [])]
            node.update(type="object", properties=properties)
            self.nodes.append(node)
            self.node.setdefault("oneOf", []).append(part["then"])

    def resolved(self, schema: Schema) -> Schema:
        while "$ref" in schema:
            schema = self.definitions[schema["$ref"].rpartition("/")[2]]
        return schema

    def titled(self) -> list[Schema]:
        """The schemas with a title, each after those that it uses, unless they use it too."""
        return list(self._titled(self.root, set()))

    def _titled(self, schema: Schema, seen: set[int]) -> Iterator[Schema]:
        if id(schema) not in seen:
            seen.add(id(schema))
            parts = [*choices(schema), *schema.get("prefixItems", []), *schema.get("properties", {}).values()]
            for part in [*parts, schema.get("items"), schema.get("additionalProperties")]:
                if part:
                    yield from self._titled(self.resolved(part), seen)
            if "title" in schema:
                yield schema

    def whole(self, member: Schema) -> Schema:
        """A member, with what its type has and the member itself doesn't."""
        return {**self.resolved(member), **member}

    def about(self, member: Schema) -> str:
        """What a member is, with its default."""
        whole = self.whole(member)
        text: str = whole["description"]
        return f"{text} Default: `{json.dumps(whole['default'])}`." if "default" in whole else text


def choices(schema: Schema) -> list[Schema]:
    return [*schema.get("oneOf", schema.get("anyOf", []))]


def literals(schema: Schema) -> list[Any]:
    return [schema["const"]] if "const" in schema else [*schema.get("enum", [])]
