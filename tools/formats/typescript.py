"""Types in TypeScript, and lists in the package for node."""

from collections.abc import Iterator

from formats.blocks import Block
from formats.language import Language, filled
from formats.schema import Format, Schema

NODE = "bindings/node/modinfo/src/types"
REPORT = "bindings/node/modinfo-report/src"
WIDTH = 100


class TypeScript(Language):
    FILES = {
        "document": f"{NODE}/module_document.cts",
        "module-info": f"{NODE}/module_info.cts",
        "report": f"{NODE}/check_report.cts",
    }
    WORDS = {
        "integer": "number",
        "string": "string",
        "boolean": "boolean",
        "null": "null",
        "array": "{}[]",
        "object": "Record<string, {}>",
        "pair": "[{1}]",
    }

    def members(self, schema: Schema) -> Iterator[tuple[str, str]]:
        """The comment and the line of each member."""
        for name, member in schema.get("properties", {}).items():
            about = self.format.about(member or {"description": "Never there."})
            mark = "" if name in schema.get("required", []) else "?"
            yield about, f"{name}{mark}: {self.value(member) if member else 'never'};"

    def alternatives(self, schema: Schema) -> list[str]:
        if "properties" in schema:
            return [f"{{ {' '.join(line for _, line in self.members(schema))} }}"]
        return super().alternatives(schema)

    def comment(self, text: str, indent: str = "") -> list[str]:
        return filled(text.replace("*/", "*\\/") + " */", f"{indent}/** ", WIDTH, f"{indent} * ")

    def declaration(self, name: str, schema: Schema) -> list[str]:
        same = [{**each, self.key: None} for each in self.format.titled() if self.name(each) == name]
        if len(same) > 1:
            schema = {"description": "An object of a kind without members.", "oneOf": same}
        comment = self.comment(schema["description"])
        if "properties" in schema:
            return [*comment, f"export interface {name} {{", *self.commented_members(schema), "}"]
        union = self.alternatives(schema)
        line = f"export type {name} = {' | '.join(union)};"
        return [*comment, line if len(line) <= WIDTH else "\n  | ".join([f"export type {name} =", *union]) + ";"]

    def commented_members(self, schema: Schema) -> Iterator[str]:
        for about, line in self.members(schema):
            yield from self.comment(about, "  ")
            yield f"  {line}"


def blocks(_: Format, info: Format, __: Format) -> Iterator[Block]:
    """The names of the members that pragmas name."""
    members = info.root["properties"]
    pragmas = [name for name in members if members[name].get("$ref") == "#/$defs/specifier"]
    lines = ["const PRAGMAS = [", *(f'  "{name}",' for name in pragmas), "] as const;"]
    yield f"{REPORT}/rows.ts", "pragmas", lines
