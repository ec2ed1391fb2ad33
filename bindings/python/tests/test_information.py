"""Compares the types of modinfo.information and of modinfo.values with docs/module-info.schema.json."""

from typing import Any

import pytest
from schemas import Schema, typed

import modinfo
from modinfo import information, values

SCHEMA = Schema("module-info")


NAMES = {
    "position": "Position",
    "range": "Range",
    "specifier": "Specifier",
    "resolutionMode": "ResolutionMode",
    "staticDependency": "StaticDependency",
    "dynamicDependency": "DynamicDependency",
    "templatePart": "TemplatePart",
    "importAttributes": "ImportAttributes",
    "pathReference": "PathReference",
    "typesReference": "TypesReference",
    "jsdocImport": "JsdocImport",
}


@pytest.mark.parametrize("module", [information, values])
@pytest.mark.parametrize("name", NAMES)
def test_a_type(name: str, module: Any) -> None:
    assert typed(getattr(module, NAMES[name])) == SCHEMA.definition(name)


@pytest.mark.parametrize("whole", [modinfo.ModuleInfoDict, modinfo.ModuleInfo])
def test_the_whole(whole: Any) -> None:
    assert typed(whole) == SCHEMA.described()
