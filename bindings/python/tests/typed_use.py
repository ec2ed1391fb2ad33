"""A user's program, which run_tests hands to `mypy --strict` and which isn't run: the types of documents, of what a
module depends on, and of reports, with nothing cast and nothing ignored."""

import mmap
from types import MappingProxyType

import modinfo
from modinfo.document import ImportDecl, ModuleDocument, Node


def document(specifier: str, source: str, imports: list[tuple[str, int, int]]) -> ModuleDocument:
    body: list[Node] = []
    for value, start, end in imports:
        declaration: ImportDecl = {
            "kind": "ImportDecl",
            "range": [start, end],
            "src": {"value": value, "range": [start, end]},
        }
        body.append(declaration)
    return {
        "specifier": specifier,
        "mediaType": "TypeScript",
        "source": source,
        "program": {"range": [0, len(source)], "body": body},
    }


def of_a_tree(source: str, program: dict[str, object], comments: list[dict[str, object]]) -> modinfo.ModuleInfoDict:
    if "fault" in modinfo.check_estree("file:///a.js", "JavaScript", source, program, comments):
        return modinfo.analyze_estree("file:///a.js", "JavaScript", source, program, comments, offsets="utf8")
    return modinfo.analyze_estree("file:///a.js", "JavaScript", source, program)


def shown(dependency: modinfo.Dependency) -> list[str]:
    if dependency.type == "static":
        return [f"{dependency.specifier} in line {dependency.specifier_range.start.line}"]
    if isinstance(dependency.argument, str):
        return [dependency.argument]
    parts: tuple[modinfo.TemplatePart, ...] = dependency.argument or ()
    return [part.value for part in parts if part.type == "string"]


def of_a_text(text: str) -> list[str]:
    found = []
    for dependency in modinfo.module_info(text, "file:///a.ts").dependencies:
        found += shown(dependency)
        if isinstance(dependency, modinfo.DynamicDependency) and dependency.has_unknown_argument:
            found.append("nothing is known")
    return found


def kinds(info: modinfo.ModuleInfo) -> dict[modinfo.StaticKind | modinfo.DynamicKind, int]:
    found: dict[modinfo.StaticKind | modinfo.DynamicKind, int] = {}
    for dependency in info.dependencies:
        found[dependency.kind] = found.get(dependency.kind, 0) + 1
    return found


def values_of(attributes: modinfo.ImportAttributes | None) -> list[modinfo.ImportAttribute]:
    return list(attributes.known.values()) if isinstance(attributes, modinfo.KnownAttributes) else []


def modes(info: modinfo.ModuleInfo) -> list[modinfo.ResolutionMode | None]:
    references: tuple[modinfo.Reference, ...] = info.ts_references
    return [each.resolution_mode for each in references if each.type == "types"]


def specifiers(info: modinfo.ModuleInfoDict) -> list[str]:
    found = []
    for dependency in info.get("dependencies", []):
        if dependency["type"] == "static":
            found.append(dependency["specifier"])
        elif isinstance(argument := dependency.get("argument"), str):
            found.append(argument)
    return found


def what_is_wrong(refused: ModuleDocument | bytes | mmap.mmap) -> str:
    report = modinfo.check(refused)
    if "fault" in report:
        return f"{report['fault']}: {report['expected']}"
    return ", ".join(warning["says"] for warning in report.get("warnings", []))


def place(fault: modinfo.Fault) -> str | None:
    return fault.report.get("pointer") if fault.report is not None else None


def all_of(paths: list[str], documents: list[ModuleDocument | bytes]) -> dict[str, modinfo.ModuleInfo]:
    found = {}
    read = [*modinfo.files(paths, jobs=2, media_type="Tsx")]
    read += modinfo.module_info_many([("import 0", "file:///a.ts"), (b"import(0)", "file:///b", "TypeScript")])
    for specifier, info in [*read, *modinfo.analyze_many(documents)]:
        if isinstance(info, modinfo.Fault):
            print(f"{specifier}:{info.line}: {info.message}")
        else:
            found[specifier] = info
    return found


def again(info: modinfo.ModuleInfoDict) -> modinfo.ModuleInfo:
    return modinfo.ModuleInfo.from_dict(MappingProxyType(modinfo.ModuleInfo.from_dict(info).to_dict()))
