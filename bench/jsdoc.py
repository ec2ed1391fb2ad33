"""Documents with JSDoc comments, by a count. Most are hostile: there is much to begin with, or far to read ahead."""

from documents import document, filed


def open_braces(count):
    """Braces before one import."""
    return jsdoc("{" * count + " import('a') }")


def bare_imports(count):
    """Dynamic imports without a specifier."""
    return jsdoc("{import(" * count)


def unclosed_imports(count):
    """Dynamic imports without a brace after them."""
    return jsdoc("{import('a')" * count)


def late_brace(count):
    """Dynamic imports with one brace after all of them, so that each is one."""
    return jsdoc("{import('a')" * count + "}")


def unclosed_names(count):
    """Declarations whose names don't end."""
    return jsdoc("@import {" * count)


def long_quote(count):
    """Declarations whose names end at one brace, and a long specifier after it."""
    return jsdoc("@import {" * count + '} from "' + "a" * (10 * count) + '"')


def long_space(count):
    """Declarations whose names end at one brace, and much white space after it."""
    return jsdoc("@import {" * count + "}" + " " * (10 * count) + 'from "a"')


def long_attributes(count):
    """Declarations whose names end at one brace, and many attributes after it."""
    return jsdoc("@import {" * count + '} from "a" with {' + 'k:"v",' * count + 'k:"v"}')


def lists_in_lists(count):
    """Dynamic imports in the attributes of those before them, so that the lists of all go to the end."""
    return jsdoc('{import("a",{with:{' + 'a{import(\':"\',{with:{x",y:"v",' * count + 'k:"v"}})}')


def declared_lists(count):
    """Declarations in the attributes of those before them."""
    return jsdoc("@import a from 'b' with {" + 'k:"@import x from \'q\' with {z",y:"v",' * count + 'k:"v"}')


def space_after_lists(count):
    """Such dynamic imports, and much white space before each mark that closes their lists."""
    space = " " * (10 * count)
    lists = '{import("a",{with:{' + 'a{import(\':"\',{with:{x",y:"v",' * count + 'k:"v"'
    return jsdoc(lists + space + "}" + space + "}" + space + ")}")


def one_after_another(count):
    """Dynamic imports and declarations as they should be."""
    return jsdoc("{import('a')} @import {b} from 'c' with {d:'e'}\n" * count)


def jsdoc(text):
    """The document of one JSDoc comment."""
    text = "* " + text
    source = f"/*{text}*/"
    return document(source, [], leading=[filed(0, "block", [0, len(source)], text)], mediaType="JavaScript")


# Documents with a number of JSDoc comments, filed at ascending positions.


def ascending(count):
    return many_jsdoc(count, range(count))


def descending(count):
    return many_jsdoc(count, reversed(range(count)))


def many_jsdoc(count, order):
    """A document of JSDoc comments, in this order by the positions where they are filed."""
    text = "*{import('a')}"
    comment = f"/*{text}*/"
    places = ([at, at + len(comment)] for at in (number * len(comment) for number in order))
    entries = [filed(pos, "block", place, text) for pos, place in enumerate(places)]
    return document(comment * count, [], leading=entries, mediaType="JavaScript")


ONE_COMMENT = {
    "good ones": one_after_another,
    "braces": open_braces,
    "bare": bare_imports,
    "unclosed": unclosed_imports,
    "late brace": late_brace,
    "names": unclosed_names,
    "quote": long_quote,
    "space": long_space,
    "attributes": long_attributes,
    "lists": lists_in_lists,
    "declared": declared_lists,
    "list space": space_after_lists,
}
MANY_COMMENTS = {
    "ascending": ascending,
    "descending": descending,
}
