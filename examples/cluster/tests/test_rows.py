"""The rows of sources, sources with faults, and words of the command line."""

import json
import os
import subprocess
import sys
from pathlib import Path
from urllib.parse import quote

import pytest
from conftest import PROGRAM, Example
from work import Source, hash_of

TEXT = """\
/// <reference types="node" resolution-mode="require" />
// @ts-types="./b.d.ts"
import b from "./b.js" with { type: "json" };
export type { C } from "./c.ts";
await import(`./${b}.js`);
import(b);
let d = require("@d/e/f");
"""
COMMENTS = '/** @jsxImportSource preact */\n/** @type {import("./types.js").T} */\nlet a;\n'
# By docs/FORMATS.md. Lines and characters count from zero.
ROWS = [
    ("import", 0, "./b.js", None, None, 2, 14, "./b.d.ts", '{"type": "json"}'),
    ("exportType", 0, "./c.ts", None, None, 3, 23, None, None),
    ("import", 1, None, None, '[{"type":"string","value":"./"},{"type":"expr"},{"type":"string","value":".js"}]', 4, 13)
    + (None, None),
    ("import", 1, None, None, None, 5, 7, None, None),
    ("require", 1, "@d/e/f", "@d/e", None, 6, 16, None, None),
    ("reference types", 0, "node", "node", None, 0, 21, None, '{"resolution-mode": "require"}'),
    ("jsdoc", 0, "./types.js", None, None, 1, 18, None, None),
    ("jsx_import_source", 0, "preact", "preact", None, 0, 21, None, None),
]
COLUMNS = "kind, is_dynamic, specifier, package, parts, line, character, types, attributes"


def test_the_rows_of_files(example: Example) -> None:
    example.write(a=TEXT)
    (example.source / "b.jsx").write_text(COMMENTS)
    assert example.run() == (0, "2 analyzed, 0 known, 0 faults\n", [])
    found = example.rows(f"SELECT {COLUMNS} FROM dependencies ORDER BY module, number")
    compact = [(*row[:4], row[4] and json.dumps(json.loads(row[4]), separators=(",", ":")), *row[5:]) for row in found]
    assert compact == ROWS
    names = {(example.url("a"),), (example.url("b")[:-2] + "jsx",)}
    assert set(example.rows("SELECT module FROM dependencies")) == names


def test_a_bad_line_among_texts(example: Example) -> None:
    """Each line has its row, and the run goes on. The same faults are listed by the next run."""
    lines = [
        {"specifier": "https://a/a", "source": 'import "./\u00e9";', "mediaType": "TypeScript"},
        {"specifier": "https://a/b.ts", "source": "import {"},
        {"specifier": "https://a/c.ts", "source": "\ud800"},
        {"specifier": "d", "source": ""},
        {"specifier": "https://a/e.ts"},
        {"specifier": "https://a/f.ts", "source": "", "mediaType": "ts"},
        {"specifier": "https://a/\ud800.ts", "source": ""},
        {"specifier": "https://a/h.ts", "source": "", "mediaType": "\ud800"},
        {"specifier": "https://a/i.ts", "source": "", "mediaType": ["TypeScript"]},
        {"specifier": "https://a/g.ts", "source": 'import "g";'},
    ]
    texts, shown = example.folder / os.fsdecode(b"texts\xff.jsonl"), example.folder / "texts\\xff.jsonl"
    texts.write_bytes(b"{\n\xff\n" + b"".join(json.dumps(line).encode() + b"\n" for line in lines))
    wanted = "1: Json:|2: Json:|7: Json:|9: Json:|10: Json:|11: Json:".split("|")
    wanted += "d: Specifier|https://a/b.ts: Syntax|https://a/c.ts: Input:|https://a/f.ts: ValueError:".split("|")
    for counts in "12 analyzed, 0 known", "7 analyzed, 5 known":
        status, output, errors = example.run("--texts", texts)
        assert (status, output) == (1, f"{counts}, 10 faults\n")
        assert sorted(" ".join(line.removeprefix(f"{shown}:").split()[:2]) for line in errors) == sorted(wanted)
        found = example.rows("SELECT module, specifier FROM dependencies WHERE specifier IS NOT NULL")
        assert found == [("https://a/a", "./\u00e9"), ("https://a/g.ts", "g")]


def test_that_one_hash_has_one_source() -> None:
    """Wherever the specifier ends and the text begins."""
    sources = ("q:/x\0a//", b"b"), ("q:/x", b"a//\0b"), ("q:/x", b"\0a//\0b")
    assert len({hash_of(Source(specifier, text), text) for specifier, text in sources}) == 3


def test_what_came_from_where(example: Example) -> None:
    """By package.json, or by members of a document. What is known already has its new version too."""
    folder = example.source / "node_modules/@a/b/lib"
    folder.mkdir(parents=True)
    (folder / "c.js").write_text("")
    (folder / "package.json").write_text('{"type": "module"}')
    example.write(d="// alone")
    line = {"specifier": "https://a/e.ts", "source": "", "package": "e", "version": "2.0.0"}
    (example.folder / "texts").write_text(json.dumps(line))
    for version, counts in ("1.0.0", "3 analyzed, 0 known"), ("1.0.1", "0 analyzed, 3 known"):
        (folder.parent / "package.json").write_text(json.dumps({"name": "@a/b", "version": version}))
        assert example.run("--texts", example.folder / "texts", example.source) == (0, f"{counts}, 0 faults\n", [])
        found = example.rows("SELECT package, version, time > '2000' FROM modules ORDER BY module")
        assert found == [(None, None, 1), ("@a/b", version, 1), ("e", "2.0.0", 1)]


@pytest.mark.parametrize("words, end", [(["-"], "\n"), (["--null", "-"], "\0")])
def test_paths_in_the_standard_input(example: Example, words: list[str], end: str) -> None:
    name = "a b%" if end == "\n" else "a\nb%"
    example.write(**{name: 'import "a";'})
    paths = f"{example.source}/{name}.ts{end}{example.source}/none\x1b.ts"
    status, output, errors = example.run(*words, input=paths)
    assert (status, output) == (1, "2 analyzed, 0 known, 1 faults\n")
    assert errors == [f"file://{example.source}/none%1B.ts: Input: No such file or directory"]
    assert example.rows("SELECT module FROM dependencies WHERE specifier = 'a'") == [(example.url(quote(name)),)]


def test_that_no_scheduler_is_there(tmp_path: Path) -> None:
    words = ["--scheduler", "tcp://127.0.0.1:1", "--wait", "1", tmp_path / "store", "a.ts"]
    done = subprocess.run([sys.executable, PROGRAM, *words], capture_output=True, text=True)
    assert (done.returncode, done.stdout) == (1, "")
    assert done.stderr.startswith("analyze.py: ") and "127.0.0.1:1" in done.stderr
