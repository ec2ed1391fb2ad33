"""What a user's editor sees: the names of all types, and what is said of each field."""

import ast
import dataclasses
import inspect
import pydoc
from typing import Any, get_args

import pytest
from schemas import Schema

import modinfo
from modinfo import document, information, report, values

SCHEMA = Schema("module-info").whole
DATACLASSES = [each for each in vars(values).values() if dataclasses.is_dataclass(each)]
MODULES = [document, information, report, values]


def names_of(module: Any) -> set[str]:
    """The names of the types that a module declares."""
    tree = ast.parse(inspect.getsource(module))
    classes = {node.name for node in tree.body if isinstance(node, ast.ClassDef)}
    others = {ast.unparse(target) for node in tree.body if isinstance(node, ast.Assign) for target in node.targets}
    return {name for name in classes | others if not name.startswith("_")}


def test_that_each_type_of_what_is_found_has_a_name_in_the_package() -> None:
    kinds = {"StaticKind", "DynamicKind", "ResolutionMode"}
    assert names_of(values) | kinds | {"MediaType", "ReportWarning"} <= set(modinfo.__all__)
    for name in names_of(values):
        assert getattr(modinfo, name) is getattr(values, name)


def test_what_the_names_stand_for() -> None:
    assert get_args(modinfo.Dependency) == (modinfo.StaticDependency, modinfo.DynamicDependency)
    assert get_args(modinfo.Reference) == (modinfo.PathReference, modinfo.TypesReference)
    assert get_args(modinfo.TemplatePart) == (modinfo.StringPart, modinfo.ExpressionPart)
    static = SCHEMA["$defs"]["staticDependency"]["properties"]["kind"]["enum"]
    assert list(get_args(modinfo.StaticKind)) == static


@pytest.mark.parametrize("module", MODULES, ids=lambda module: module.__name__)
def test_that_each_field_has_a_docstring_for_editors(module: Any) -> None:
    """A text after each field. The parts of a pair are named by the docstring of the class."""
    count = 0
    for node in ast.parse(inspect.getsource(module)).body:
        if isinstance(node, ast.ClassDef) and ast.unparse(node.bases[0]) != "Pair":
            for field, after in zip(node.body, [*node.body[1:], None]):
                if isinstance(field, ast.AnnAssign):
                    assert isinstance(after, ast.Expr) and isinstance(after.value, ast.Constant), ast.unparse(field)
                    count += 1
    assert count > 8


@pytest.mark.parametrize("of", DATACLASSES)
def test_that_help_shows_what_is_said_of_each_field(of: Any) -> None:
    texts = {
        each["title"] if "x-python" not in each else each["x-python"]: each
        for each in [SCHEMA, *SCHEMA["$defs"].values()]
        if "title" in each
    }
    shown = " ".join(pydoc.render_doc(of, renderer=pydoc.plaintext).replace("|", " ").split())
    for name, part in texts.get(of.__name__, {}).get("properties", {}).items():
        text = part.get("description") or SCHEMA["$defs"][part["$ref"].rpartition("/")[2]]["description"]
        assert " ".join(text.split()) in shown, name
    for each in dataclasses.fields(of):
        assert each.name in shown
