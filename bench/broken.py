"""Texts that stop being JSON at their last byte, as `modinfo check` reads them, by a count."""


def numbers(count):
    return array(b"-1.5e+10", count)


def strings(count):
    return array(rb'"\u00e9 "', count)


def words(count):
    return array(b"false", count)


def objects(count):
    return array(b'{"a":[]}', count)


def array(value, count):
    """An array of so many values, with a letter where the next would begin."""
    return b"[" + (value + b",\n") * count + b"x"


BROKEN = {
    "numbers": numbers,
    "strings": strings,
    "words": words,
    "objects": objects,
}
