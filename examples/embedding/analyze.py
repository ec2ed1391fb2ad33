"""Analyzes each of the named documents in this one process, and prints what ./modinfo prints.

usage: python3 analyze.py LIBRARY DOCUMENT ..
example: python3 examples/embedding/analyze.py build/libmodinfo.so examples/small-module.json

LIBRARY is libmodinfo.so, which `tools/build_library` makes.
"""

import ctypes
import sys

ANSWERED, FAULT, TOO_SMALL = 0, 1, 2
TEXT = (ctypes.c_char_p, ctypes.c_size_t)
ANSWER = (ctypes.c_char_p, ctypes.c_size_t, ctypes.POINTER(ctypes.c_size_t))


class Modinfo:
    """Functions of include/modinfo.h that read a document."""

    def __init__(self, path, functions=("analyze",)):
        self.library = ctypes.CDLL(path)
        for name in functions:
            self.declare(f"modinfo_{name}", *TEXT, *ANSWER)
        self.declare("modinfo_run", ctypes.c_uint8, *TEXT, *ANSWER)

    def declare(self, name, *parameters):
        function = getattr(self.library, name)
        function.restype = ctypes.c_uint8
        function.argtypes = parameters

    def call(self, name, document, room=4096):
        """The answer's line; a ValueError with the fault's name where the document is refused."""
        length = ctypes.c_size_t()
        while True:
            answer = ctypes.create_string_buffer(room)
            status = getattr(self.library, name)(document, len(document), answer, room, ctypes.byref(length))
            if status != TOO_SMALL:
                break
            room = length.value
        text = answer.raw[: length.value].decode()
        if status == FAULT:
            raise ValueError(text)
        return text


def main():
    if sys.argv[1:2] in (["-h"], ["--help"]):
        print(__doc__.rstrip())
        return 0
    if len(sys.argv) < 3:
        print("usage: python3 analyze.py LIBRARY DOCUMENT ..", file=sys.stderr)
        return 2
    modinfo = Modinfo(sys.argv[1])
    status = 0
    for name in sys.argv[2:]:
        with open(name, "rb") as file:
            document = file.read()
        try:
            print(modinfo.call("modinfo_analyze", document), end="", flush=True)
        except ValueError as fault:
            print(f"modinfo: {fault}", file=sys.stderr)
            status = 1
    return status


if __name__ == "__main__":
    sys.exit(main())
