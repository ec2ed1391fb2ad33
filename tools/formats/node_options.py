"""The options of the commands for node, from docs/node-options.json: their tables and their help in TypeScript."""

import json
import re
from collections.abc import Iterator
from typing import Any

from sources import ROOT

from formats.language import GENERATED

PATH = "docs/node-options.json"
GRAPH = "bindings/node/modinfo-graph/src/cli/options.ts"
REPORT = "bindings/node/modinfo-report/src/options.ts"
COLUMN = 21
KINDS = {"flag": 'type: "boolean"', "text": 'type: "string"', "texts": 'type: "string", multiple: true'}

Entry = dict[str, Any]


def files() -> dict[str, str]:
    first = f"/** {GENERATED} from {PATH}. */"
    found: Entry = json.loads((ROOT / PATH).read_text())
    groups, project = found["groups"], found["package.json"]
    run = table("RUN_OPTIONS", groups, "entry", "resolution", "common")
    own = table("FILES_OPTIONS", groups, "questions", "answers")
    of_report = table("REPORT_OPTIONS", groups, "outputs")
    of_project = [f'  {in_code(name)}: "{kind}",' for name, kind in project.items()]
    graph = [
        first,
        *("", "/** The options of all commands, as node's `parseArgs` has them. */", *run),
        *("", "/** The options of `modinfo-files` besides `RUN_OPTIONS`. */", *own),
        *("", "/** The kinds of the options in the member `modinfo` of a package.json. */"),
        *("export const PROJECT_OPTIONS: Record<string, string> = {", *of_project, "};"),
        *("", *help_text("FILES_HELP", found["commands"]["files"], groups)),
        *("", "/** The end of each help. PACKAGE is replaced by the name of the program's package. */"),
        *help_text("PROGRAM_HELP", found["program"], groups),
    ]
    report = [
        first,
        *("", "/** The options of `modinfo-report` besides those of all commands. */", *of_report),
        *("", *help_text("REPORT_HELP", found["commands"]["report"], groups)),
    ]
    return {GRAPH: "".join(f"{line}\n" for line in graph), REPORT: "".join(f"{line}\n" for line in report)}


def table(constant: str, groups: Entry, *names: str) -> Iterator[str]:
    """The declaration of a table of options, by their names."""
    yield f"export const {constant} = {{"
    for option in (each for name in names for each in groups[name]):
        short = [f"short: \"{option['short']}\""] if "short" in option else []
        kind = ", ".join([KINDS[option["kind"]], *short])
        for name in (option["name"], option.get("also")):
            if name:
                yield f"  {in_code(name)}: {{ {kind} }},"
    yield "} as const;"


def in_code(name: str) -> str:
    """A name as the key of an object."""
    return name if re.fullmatch(r"\w+", name) else f'"{name}"'


def help_text(constant: str, lines: list[str], groups: Entry) -> list[str]:
    """The declaration of a help, to which what is printed of the program is added."""
    by_name = {each["name"]: [each] for group in groups.values() for each in group} | groups
    text = [part for line in lines for part in (map(in_help, by_name[line[1:]]) if line.startswith("@") else [line])]
    first, *others = [part.replace("\\", "\\\\").replace("`", "\\`").replace("${", "\\${") for part in text]
    return [f"export const {constant} = `{first}", *others, "`;"]


def in_help(option: Entry) -> str:
    """The line of an option."""
    short = [f"-{option['short']}"] if "short" in option else []
    also = [f"--{option['also']}"] if "also" in option else []
    words = ", ".join([*short, f"--{option['name']}", *also])
    return "".join([f"  {words} {option.get('value', '')}".ljust(COLUMN), option["text"]])
