"""Many documents, one a line, against the test cases of docs/ROWS.md that run `modinfo analyze --lines`."""

import io
import json
from collections.abc import Callable, Iterable, Iterator

import pytest
from repository import CASES, EXAMPLES, blocks, check_cases, examples, program_cases

import modinfo
from modinfo import _library
from modinfo._lines import BATCH_LINES


def cases_of_lines(command: str) -> Iterator[tuple[bytes, bytes]]:
    """The input and the output of each test case that runs a command with --lines. --strict changes no line."""
    for name in "program.rows", "check.rows":
        for block in blocks((CASES / name).read_text()):
            lines = {word: [rest for other, rest in block if other == word] for word, _ in block}
            words = lines["call"][0].removeprefix("serve ").replace(" --strict", "")
            if words == f"{command} --lines" and "bytes" not in lines:
                output = "".join(line + "\n" for line in lines.get("output", []))
                yield "\n".join(lines.get("input", [])).encode(), output.encode()


Function = Callable[[Iterable[bytes], int], Iterator[bytes]]

FUNCTIONS: dict[str, Function] = {
    "analyze": modinfo.analyze_lines,
    "analyze --estree": modinfo.analyze_estree_lines,
    "analyze --source": modinfo.analyze_source_lines,
    "convert": modinfo.convert_lines,
    "reach": modinfo.reach_lines,
    "check": lambda lines, jobs: modinfo.check_lines(lines, jobs=jobs),
    "check analyze": lambda lines, jobs: modinfo.check_lines(lines, "analyze", jobs),
    "check --estree": modinfo.check_estree_lines,
    "check analyze --estree": lambda lines, jobs: modinfo.check_lines(lines, "analyze_estree", jobs),
    "check --source": modinfo.check_source_lines,
    "check convert": lambda lines, jobs: modinfo.check_lines(lines, "convert", jobs),
    "check reach": lambda lines, jobs: modinfo.check_lines(lines, "reach", jobs),
}
ALL_CASES = [(call, *case) for call in FUNCTIONS for case in cases_of_lines(call)]


@pytest.mark.parametrize("jobs", [1, 3])
@pytest.mark.parametrize("call, lines, wanted", ALL_CASES)
def test_a_case_of_lines(call: str, lines: bytes, wanted: bytes, jobs: int) -> None:
    assert b"".join(FUNCTIONS[call](io.BytesIO(lines), jobs)) == wanted


@pytest.mark.parametrize("jobs", [1, 2])
def test_reports_on_lines_with_texts(jobs: int) -> None:
    """As those on one document each."""
    lines = [b'{"specifier":"file:///a.ts","source":"import {"}', b'{"specifier":"a:b","source":""}\n', b"{"]
    found = list(map(json.loads, modinfo.check_source_lines(lines, jobs)))
    assert found == [modinfo.check(line, "analyze_source") for line in lines]
    assert [report.get("fault") for report in found] == ["Syntax", None, "Json"]


def test_that_there_are_cases_of_several_lines() -> None:
    assert {call for call, _, output in ALL_CASES if output.count(b"\n") > 1} >= {"analyze", "convert", "check"}


@pytest.mark.parametrize("jobs", [1, 2])
@pytest.mark.parametrize("command", ["analyze", "convert", "reach"])
def test_each_case_of_a_check(command: modinfo.Command, jobs: int) -> None:
    cases = [(document, report) for _, other, document, report in check_cases(CASES) if other == command]
    assert cases
    documents = [document for document, _ in cases]
    assert list(modinfo.check_lines(documents, command, jobs)) == [report for _, report in cases]


@pytest.mark.parametrize("jobs", [1, 2, 8])
def test_each_case_and_example_of_one_document(jobs: int) -> None:
    documents, wanted = [], []
    for _, command, document, status, answer in program_cases(CASES):
        if command == "analyze":
            documents.append(document)
            wanted.append(b'{"answer":%b}\n' % answer.strip() if status == 0 else b'{"fault":"%b"}\n' % answer)
    for command, path, expected in examples():
        if command == "analyze":
            documents.append(path.read_bytes())
            wanted.append(b'{"answer":%b}\n' % expected.read_bytes().strip())
    assert len(documents) > 2 * BATCH_LINES
    assert list(modinfo.analyze_lines(documents, jobs)) == wanted


@pytest.mark.parametrize("jobs", [1, 2])
@pytest.mark.parametrize("before", [1, 1000])
def test_a_line_that_is_no_bytes(before: int, jobs: int) -> None:
    """The lines before it have their answers."""
    answers = modinfo.analyze_lines([*[b"{"] * before, "{}"], jobs)  # type: ignore[list-item]
    for _ in range(before):
        assert next(answers) == b'{"fault":"Json"}\n'
    with pytest.raises(TypeError, match="a line must be bytes, not str"):
        next(answers)
    assert list(answers) == []


@pytest.mark.parametrize("jobs", [0, -1])
def test_a_number_of_jobs_that_is_none(jobs: int) -> None:
    with pytest.raises(ValueError, match="jobs must be above zero"):
        modinfo.analyze_lines([], jobs)


def test_another_command() -> None:
    names = "analyze, analyze_estree, analyze_source, convert, reach"
    with pytest.raises(ValueError, match=f"^command must be one of {names}, not 'check'$"):
        modinfo.check_lines([], "check")  # type: ignore[arg-type]


def test_that_threads_read_no_more_than_a_few_batches_ahead() -> None:
    read = 0

    def lines() -> Iterator[bytes]:
        nonlocal read
        for read in range(1, 100_000):
            yield b"{"

    answers = modinfo.analyze_lines(lines(), jobs=2)
    next(answers)
    assert read <= 2 * 2 * BATCH_LINES
    del answers


def test_that_lines_are_read_as_answers_are_asked_for() -> None:
    read = []

    def lines() -> Iterator[bytes]:
        for line in [b"{", b"\xff\n", b"\n"]:
            read.append(line)
            yield line

    answers = modinfo.analyze_lines(lines())
    assert next(answers) == b'{"fault":"Json"}\n'
    assert read == [b"{"]
    assert list(answers) == [b'{"fault":"Input"}\n', b'{"fault":"Json"}\n']


@pytest.mark.parametrize("jobs", [1, 2])
def test_a_document_of_several_lines(jobs: int) -> None:
    lines = [b"1", b"[\n1,\n2]\n", b"", b"\n"]
    answers = [b'{"answer":1}\n', b'{"answer":[1,2]}\n', b'{"fault":"Json"}\n', b'{"fault":"Json"}\n']
    assert list(modinfo.convert_lines(lines, jobs)) == answers


def test_that_a_batch_is_one_call(monkeypatch: pytest.MonkeyPatch) -> None:
    """Where the function of one document would fail, that of many returns results."""
    command = _library.COMMANDS["convert"]
    one = _library.Call(lambda *arguments: _library.FAULT, command.answer.lines)
    monkeypatch.setitem(_library.COMMANDS, "convert", _library.Command(one, command.check))
    lines = [b"%d" % number for number in range(3 * BATCH_LINES)]
    assert list(modinfo.convert_lines(lines, 2)) == [b'{"answer":%b}\n' % line for line in lines]


@pytest.mark.parametrize("jobs", [1, 3])
def test_keyed_documents(jobs: int) -> None:
    """Of each form, with the specifier first and last, and of documents with a fault."""
    path = EXAMPLES / "page.json"
    document, wanted = json.loads(path.read_text()), json.loads((EXAMPLES / "page.out.json").read_text())
    turned = json.dumps(dict(reversed(document.items())))
    escaped = path.read_text().replace(document["specifier"], document["specifier"].replace("p", "\\u0070"))
    forms = [document, json.dumps(document), path.read_bytes(), turned, escaped, bytearray(turned.encode())]
    found = list(modinfo.analyze_many(forms * 100, jobs))
    assert found == [(document["specifier"], modinfo.ModuleInfo.from_dict(wanted))] * len(forms) * 100
    broken: list[modinfo.Document] = [
        {"specifier": "file:///a"},
        b'{"specifier":"a:b"',
        b"{",
        b"[]",
        {"specifier": 1},
        b"\xff",
    ]
    keyed = [(key, str(fault).split(" ")[0]) for key, fault in modinfo.analyze_many(broken, jobs)]
    assert keyed == [("file:///a", "Tree"), ("a:b", "Json"), ("", "Json"), ("", "Tree"), ("", "Tree"), ("", "Input")]
    with pytest.raises(TypeError, match="^a document must be a mapping, a str or bytes, not int$"):
        list(modinfo.analyze_many([1], jobs))  # type: ignore[list-item]


@pytest.mark.parametrize(
    "members, wanted",
    [
        ('"specifier":"a:b"', "a:b"),
        (r'"specifie\u0072" : "a:b"', "a:b"),
        (r'"\u0073\u0070\u0065\u0063\u0069\u0066\u0069\u0065\u0072":"a:b"', "a:b"),
        ('"specifier":"a:b","other":[{"specifier":"c:d"}]', "a:b"),
        ('"other":{"specifier":"a:b"}', "first"),
        (r'"other":"\"specifier\":\"a:b\""', "first"),
        (r'"\"specifier":"a:b"', "first"),
    ],
)
def test_the_key_where_a_document_has_more_than_one_specifier(members: str, wanted: str) -> None:
    """By docs/FORMATS.md the last one counts. The first one is no URL, so that its document has a fault."""
    rest = '"mediaType":"Json","source":"","program":{"range":[0,0],"body":[]}'
    [(key, info)] = modinfo.analyze_many([f'{{"specifier":"first",{rest},{members}}}'])
    assert (key, isinstance(info, modinfo.ModuleInfo)) == (wanted, wanted == "a:b")
