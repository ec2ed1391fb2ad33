"""Documents with the tree of a parser, as ESTree describes it, of any size."""

from documents import encoded


def document(source, body, comments=()):
    """The bytes of a document of the source, whose program has this body. The source is ASCII alone."""
    program = node("Program", 0, len(source), body=body, sourceType="module")
    return encoded(
        {
            "comments": list(comments),
            "mediaType": "JavaScript",
            "program": program,
            "source": source,
            "specifier": "file:///generated.js",
        }
    )


def node(type_name, start, end, **members):
    return {"type": type_name, "start": start, "end": end, **members}


def literal(start, text):
    return node("Literal", start, start + len(text) + 2, value=text, raw=f'"{text}"')


def name(start, text):
    return node("Identifier", start, start + len(text), name=text)


def statements(count):
    """Imports, calls and other statements, one a line, each with a comment."""
    parts, body, comments, at = [], [], [], 0
    for number in range(count):
        comment = f"// statement {number}"
        comments.append({"type": "Line", "value": comment[2:], "start": at, "end": at + len(comment)})
        start = at + len(comment) + 1
        text, statement = MAKERS[number % len(MAKERS)](number, start)
        parts.append(f"{comment}\n{text}\n")
        body.append(statement)
        at += len(parts[-1])
    return document("".join(parts), body, comments)


def imported(number, at):
    specifier = f"./modules/{number}.js"
    text = f'import {{ value{number} }} from "{specifier}";'
    local = name(at + 9, f"value{number}")
    specifiers = [node("ImportSpecifier", local["start"], local["end"], imported=local, local=local)]
    source = literal(at + text.index('"'), specifier)
    return text, node("ImportDeclaration", at, at + len(text), specifiers=specifiers, source=source)


def required(number, at):
    specifier = f"./library/{number}"
    text = f'const local{number} = require("{specifier}");'
    start = at + text.index("require")
    called = call(start, [literal(at + text.index('"'), specifier)], at + len(text) - 1)
    target = name(at + 6, f"local{number}")
    declared = node("VariableDeclarator", at + 6, at + len(text) - 1, id=target, init=called)
    return text, node("VariableDeclaration", at, at + len(text), declarations=[declared], kind="const")


def computed(number, at):
    text = f"compute({number}, a + b);"
    sum_at = at + text.index("a + b")
    number_at = at + len("compute(")
    whole = node("Literal", number_at, number_at + len(str(number)), value=number, raw=str(number))
    added = node(
        "BinaryExpression", sum_at, sum_at + 5, left=name(sum_at, "a"), operator="+", right=name(sum_at + 4, "b")
    )
    called = call(at, [whole, added], at + len(text) - 1, "compute")
    return text, node("ExpressionStatement", at, at + len(text), expression=called)


def call(at, arguments, end, callee="require"):
    return node("CallExpression", at, end, callee=name(at, callee), arguments=arguments, optional=False)


MAKERS = [imported, required, computed]


def comments_in_a_row(count):
    """Block comments in one line, before one statement."""
    ranges = [{"start": at, "end": at + 4} for at in range(0, 4 * count, 4)]
    return document("/**/" * count + ";", [node("EmptyStatement", 4 * count, 4 * count + 1)], ranges)


def one_gap(count):
    """Calls that all have their argument behind one long gap."""
    source = "require(" + " " * count + '"a")'
    start = len("require(") + count
    called = [call(0, [literal(start, "a")], len(source))] * count
    return document(source, [node("ExpressionStatement", 0, len(source), expression=each) for each in called])


def pairs(count):
    """Calls that all have their argument in the same pairs of parentheses."""
    source = "require(" + "(" * count + '"a"' + ")" * (count + 1)
    called = [call(0, [literal(len("require(") + count, "a")], len(source))] * count
    return document(source, [node("ExpressionStatement", 0, len(source), expression=each) for each in called])


def one_line(count):
    """A comment as in HTML, handed in many times."""
    return document("<!--" + " " * count, [], [{"start": 0, "end": count + 4}] * count)


def turned_around(count):
    """The elements of an array, the last one first."""
    elements = [name(at, "a") for at in range(1, 2 * count, 2)]
    source = "[" + "a," * count + "];"
    array = node("ArrayExpression", 0, len(source) - 1, elements=elements[::-1])
    return document(source, [node("ExpressionStatement", 0, len(source), expression=array)])


ESTREE = {
    "statements": statements,
    "comments": comments_in_a_row,
    "one gap": one_gap,
    "pairs": pairs,
    "one line": one_line,
    "turned": turned_around,
}
