"""The memory of an object that has the buffer protocol, without a copy."""

import ctypes
import mmap
from types import TracebackType

# array.array and others that have the protocol are taken too. Python 3.12 has a type for all of them.
Buffer = bytes | bytearray | memoryview | mmap.mmap


class _PyBuffer(ctypes.Structure):
    """Py_buffer of Python's stable ABI."""

    _fields_ = [
        ("address", ctypes.c_void_p),
        ("object", ctypes.c_void_p),
        ("length", ctypes.c_ssize_t),
        ("item_size", ctypes.c_ssize_t),
        ("is_read_only", ctypes.c_int),
        ("dimensions", ctypes.c_int),
        ("format", ctypes.c_char_p),
        ("shape", ctypes.c_void_p),
        ("strides", ctypes.c_void_p),
        ("suboffsets", ctypes.c_void_p),
        ("internal", ctypes.c_void_p),
    ]


_get = ctypes.pythonapi.PyObject_GetBuffer
_get.argtypes = [ctypes.py_object, ctypes.POINTER(_PyBuffer), ctypes.c_int]
_get.restype = ctypes.c_int
_release = ctypes.pythonapi.PyBuffer_Release
_release.argtypes = [ctypes.POINTER(_PyBuffer)]
_release.restype = None

# PyBUF_SIMPLE: bytes one after the other.
_SIMPLE = 0


class Memory:
    """The address and the length of a buffer. Its memory can't move or be freed inside the `with`.

    Raises TypeError where the object has no buffer, and BufferError where its bytes aren't one after the other.
    """

    def __init__(self, buffer: object) -> None:
        self._buffer = buffer
        self._view = _PyBuffer()

    def __enter__(self) -> tuple[int, int]:
        _get(self._buffer, ctypes.byref(self._view), _SIMPLE)
        return self._view.address or 0, self._view.length

    def __exit__(
        self, kind: type[BaseException] | None, error: BaseException | None, traceback: TracebackType | None
    ) -> None:
        _release(ctypes.byref(self._view))


def is_buffer(value: object) -> bool:
    if type(value) is bytes:
        return True
    try:
        with memoryview(value):  # type: ignore[arg-type]
            return True
    except TypeError:
        return False


def contiguous(buffer: Buffer) -> Buffer:
    """The buffer, or a copy of its bytes if they aren't one after the other."""
    if type(buffer) is bytes:
        return buffer
    with memoryview(buffer) as view:
        return buffer if view.c_contiguous else view.tobytes()
