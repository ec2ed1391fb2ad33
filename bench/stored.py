"""Stored JSON, as `modinfo convert` and `modinfo reach` read it, by a count."""

from documents import encoded


def commented(count):
    """The information of one module of version 1, whose dependencies have comments that name types."""
    return encoded({"dependencies": [stored(f"./{number}.js") | comments_of(number) for number in range(count)]})


def comments_of(number):
    text = f' @deno-types="./{number}.d.ts"'
    return {"leadingComments": [{"range": [[number, 0], [number, len(text) + 2]], "text": text}]}


def one_comment(count):
    """The information of one module of version 1, with one dependency and one long comment that names no types."""
    comment = {"range": [[0, 0], [0, 10 * count + 2]], "text": " " * (10 * count)}
    return encoded({"dependencies": [stored("./a.js") | {"leadingComments": [comment]}]})


def chain(count):
    """Modules that each depend on the next."""
    return reach_input({key(number): [key(number + 1)] for number in range(count)})


def star(count):
    """A module that depends on all others."""
    leaves = [key(number) for number in range(1, count + 1)]
    return reach_input({key(0): leaves} | {leaf: [] for leaf in leaves})


def back_and_forth(count):
    """A module that depends on all others, which all depend on it and on the one before them."""
    leaves = [key(number) for number in range(1, count + 1)]
    return reach_input({key(0): leaves} | {leaf: [key(0), key(number)] for number, leaf in enumerate(leaves)})


def same_again(count):
    """A module that depends on itself, again and again."""
    return reach_input({key(0): [key(0)] * count})


def reach_input(modules):
    infos = {name: {"dependencies": [stored(specifier) for specifier in names]} for name, names in modules.items()}
    return encoded({"modules": infos, "root": key(0)})


def key(number):
    """A specifier. The keys of numbers in a row are in no order."""
    return f"file:///{number * 7919 % 1_000_003}.js"


def stored(specifier):
    end = len(specifier) + 9
    return {"kind": "import", "specifier": specifier, "specifierRange": [[0, 7], [0, end]], "type": "static"}


CONVERT = {
    "commented": commented,
    "comment": one_comment,
}
REACH = {
    "chain": chain,
    "star": star,
    "both ways": back_and_forth,
    "itself": same_again,
}
