"""Module documents of any size."""

import json


def encoded(value):
    return json.dumps(value, ensure_ascii=False, separators=(",", ":")).encode()


def document(source, body, **comments):
    """The bytes of a document of the source, whose program has this body."""
    value = {
        "mediaType": "TypeScript",
        "program": {"body": body, "range": [0, len(source.encode())]},
        "source": source,
        "specifier": "file:///generated.ts",
    }
    return encoded(value | comments)


# Documents of about a size in bytes.


def many_lines(size):
    return statements(size, "\n")


def one_line(size):
    return statements(size, " ")


def one_text(size):
    """A source that is one long comment without a line end, and then an import."""
    comment = "/* " + "é and some words " * (size // 18) + "*/ "
    statement, node = imported(0, len(comment.encode()))
    return document(comment + statement, [node])


def statements(size, separator):
    """Imports, exports and other statements, one after another."""
    parts, body = [], []
    at = written = number = 0
    while written < size:
        statement, node = MAKERS[number % len(MAKERS)](number, at)
        parts.append(statement)
        body.append(node)
        at += len((statement + separator).encode())
        written += len(statement) + len(encoded(node)) + 2
        number += 1
    return document(separator.join(parts), body)


def literal(statement, specifier, at):
    start = at + len(statement[: statement.index('"')].encode())
    return {"range": [start, start + len(specifier.encode()) + 2], "value": specifier}


def imported(number, at):
    specifier = f"./modules/größe_{number}.ts"
    statement = f'import {{ value{number} }} from "{specifier}";'
    node = {
        "hasSpecifiers": True,
        "kind": "ImportDecl",
        "range": [at, at + len(statement.encode())],
        "src": literal(statement, specifier, at),
    }
    return statement, node


def exported(number, at):
    specifier = f"https://example.com/lib/{number}/mod.ts"
    statement = f'export * from "{specifier}";'
    node = {
        "kind": "ExportAll",
        "range": [at, at + len(statement.encode())],
        "src": literal(statement, specifier, at),
        "typeOnly": False,
    }
    return statement, node


def other(number, at):
    statement = f"const local{number} = compute({number}, [1, 2, {number}]);"
    end = at + len(statement.encode())
    node = {"kind": "Other", "range": [at, end]}
    for inset in (3, 2, 1):
        node = {"children": [node], "kind": "Other", "range": [at, end - inset]}
    return statement, node


MAKERS = [imported, exported, other]


# Documents with a number of one thing, all in one line but for `imports`.


def imports(count):
    """Imports, one a line."""
    parts, body, at = [], [], 0
    for number in range(count):
        statement, node = imported(number, at)
        parts.append(statement)
        body.append(node)
        at += len(statement.encode()) + 1
    return document("\n".join(parts), body)


def calls(count):
    """Calls of `import`, each a statement of its own."""
    parts, body, at = [], [], 0
    for number in range(count):
        specifier = f'"./{number}.js"'
        parts.append(f"import({specifier});")
        body.append(call(at, string(at + len("import("), specifier)))
        at += len(parts[-1])
    return document("".join(parts), body)


def comments(count):
    """Comments, each leading where it ends, handed in from the last to the first."""
    texts = [f" {number} " for number in range(count)]
    entries, at = [], 0
    for text in texts:
        end = at + len(text) + 4
        entries.append(filed(end, "block", [at, end], text))
        at = end
    return document("".join(f"/*{text}*/" for text in texts), [], leading=entries[::-1])


def filings(count):
    """One comment that is filed again and again at one place."""
    entry = filed(5, "block", [0, 5], "*")
    return document("/***/", [], trailing=[entry] * count)


def references(count):
    """Triple-slash references, all leading at the start."""
    line = "/// <reference path='a' />\n"
    entries = []
    for at in range(0, count * len(line), len(line)):
        place = [at, at + len(line) - 1]
        entries.append({"kind": "line", "range": place, "text": line[2:-1]})
    return document(line * count, [], leading=[{"comments": entries, "pos": 0}])


def heads(count):
    """Comments without a pragma, all leading at the start of a file in which each finder looks."""
    text = "* a comment of some words "
    comment = f"/*{text}*/"
    places = ([at, at + len(comment)] for at in range(0, count * len(comment), len(comment)))
    entries = [{"kind": "block", "range": place, "text": text} for place in places]
    return document(comment * count, [], leading=[{"comments": entries, "pos": 0}], mediaType="Jsx")


def one_start(count):
    """Imports that all start after one long comment."""
    text = " " * (10 * count)
    comment = f"/*{text}*/"
    statement, node = imported(0, len(comment))
    entry = filed(len(comment), "block", [0, len(comment)], text)
    return document(comment + statement, [node] * count, leading=[entry])


def two_starts(count):
    """Imports that start after one long comment and after another, alternately."""
    text = " " * (5 * count)
    comment = f"/*{text}*/"
    starts = [len(comment), 2 * len(comment)]
    statement, _ = imported(0, 0)
    nodes = [imported(0, start)[1] for start in starts]
    entries = [filed(start, "block", [start - len(comment), start], text) for start in starts]
    return document(comment * 2 + statement, nodes * (count // 2), leading=entries)


def white_space(size):
    """One comment of white space at the head."""
    return head_comment("block", " " * size, "*/")


def keywords(size):
    """One reference at the head, of attributes that have no value."""
    pair = " path = types ="
    return head_comment("line", "/ <reference" + pair * (size // len(pair)) + " />", "")


def open_quote(size):
    """One pragma at the head, with a quote that nothing closes."""
    return head_comment("block", ' @ts-self-types="' + "a" * size, "*/")


def head_comment(kind, text, closing):
    source = ("/*" if closing else "//") + text + closing
    entry = filed(0, kind, [0, len(source)], text)
    return document(source, [], leading=[entry], mediaType="Jsx")


def template_parts(count):
    """A call of `import` with a template, in which texts and expressions take turns."""
    source = "import(`" + "/${a}" * count + "`)"
    template = [len("import("), len(source) - 1]
    children = [{"kind": "Ident", "range": [start, start + 1], "value": "a"} for start in range(11, 11 + 5 * count, 5)]
    node = {"children": children, "kind": "Template", "quasis": ["/"] * count + [""], "range": template}
    return document(source, [call(0, node)])


def different_keys(count):
    """A call of `import` with attributes of different keys, in no order."""
    return attributes([f'"{number * 7919 % count}"' for number in range(count)])


def equal_keys(count):
    """A call of `import` with as many attributes of one key."""
    return attributes(['"type"'] * count)


def attributes(keys):
    start = 'import("a",{with:{'
    parts, properties, at = [], [], len(start)
    for key in keys:
        value = string(at + len(key) + 1, '"b"')
        parts.append(f'{key}:"b"')
        properties.append(key_value(at, {"str": json.loads(key)}, value))
        at += len(parts[-1]) + 1
    source = start + ",".join(parts) + "}})"
    clause = {"children": properties, "kind": "Object", "range": [len(start) - 1, len(source) - 2]}
    property = key_value(len('import("a",{'), {"ident": "with"}, clause)
    options = {"children": [property], "kind": "Object", "range": [len('import("a",'), len(source) - 1]}
    return document(source, [call(0, string(7, '"a"'), options)])


def call(at, *arguments):
    return {
        "args": [{"range": argument["range"]} for argument in arguments],
        "callee": "import",
        "children": list(arguments),
        "kind": "Call",
        "range": [at, arguments[-1]["range"][1] + 1],
    }


def string(at, spelled):
    return {"kind": "Str", "range": [at, at + len(spelled)], "value": json.loads(spelled)}


def key_value(at, key, value):
    return {"children": [value], "key": key, "kind": "KeyValue", "range": [at, value["range"][1]]}


def filed(pos, kind, place, text):
    return {"comments": [{"kind": kind, "range": place, "text": text}], "pos": pos}


BY_SIZE = {
    "many lines": many_lines,
    "one line": one_line,
    "one text": one_text,
    "white space": white_space,
    "keywords": keywords,
    "open quote": open_quote,
}
BY_COUNT = {
    "calls": calls,
    "comments": comments,
    "filings": filings,
    "references": references,
    "heads": heads,
    "parts": template_parts,
    "keys": different_keys,
    "equal keys": equal_keys,
    "one start": one_start,
    "two starts": two_starts,
}
