"""From files to what they depend on."""

import os
import stat
from collections.abc import Iterable, Iterator
from urllib.parse import quote

from ._errors import Fault, alone, with_memory_fault
from ._lines import in_threads
from ._source import module_info, number_of
from .document import MediaType
from .values import ModuleInfo

# The most bytes of a file.
_LIMIT = 64 << 20
# The folders of files that the system makes up as they are read. They count as regular, but some have no end.
_OF_SYSTEM = (b"/proc/", b"/sys/")
# The characters that a path has in a URL too.
_PLAIN = "/!$&'()*+,;=:@"

Path = str | os.PathLike[str]


def files(
    paths: Iterable[Path], jobs: int = 1, media_type: MediaType | None = None
) -> Iterator[tuple[str, ModuleInfo | Fault]]:
    """Returns for each file its `file:` URL and what it depends on, in the order of the paths.

    Where `media_type` is None, the ending of each path decides.

    Where a file has a fault, the Fault is returned, and the next file is read: Input, where the file can't be read,
    isn't UTF-8, isn't a regular file, is in /proc or /sys or has more than 64 MiB; Syntax; Defect; OutOfMemory. Only
    regular files are read, and no folder is walked. `jobs` threads work side by side; with more than one, some files
    are read ahead.

    Raises TypeError where `paths` is one path, or has something else; ValueError where no media type has the name.
    """
    if isinstance(paths, (str, bytes, os.PathLike)):
        raise TypeError(f"paths must be a list of paths, not {type(paths).__name__}")
    number_of(media_type)
    return in_threads(lambda path: _file(path, media_type), (os.fspath(path) for path in paths), jobs)


def file_url(path: Path) -> str:
    """Returns the `file:` URL of a path, as `files` does."""
    return "file://" + quote(os.fsencode(os.path.abspath(path)), safe=_PLAIN)


@with_memory_fault
def read_file(path: Path) -> bytes:
    """Returns the bytes of a regular file of at most 64 MiB, outside of /proc and /sys. Nothing else is opened.

    Raises Fault, Input, where there is none or it can't be read.
    """
    try:
        _check_kind(os.stat(path))
        if os.fsencode(os.path.realpath(path, strict=True)).startswith(_OF_SYSTEM):
            raise Fault("Input", message="in /proc or /sys")
        # Where the file was replaced meanwhile, by a pipe for example, nothing is waited for.
        with open(os.open(path, os.O_RDONLY | os.O_NONBLOCK | os.O_CLOEXEC), "rb") as file:
            _check_kind(os.fstat(file.fileno()))
            # A read that doesn't wait may return a part of the file, or None.
            os.set_blocking(file.fileno(), True)
            content = file.read(_LIMIT + 1)
    except (OSError, ValueError) as error:
        raise Fault("Input", message=getattr(error, "strerror", None) or str(error)) from None
    if len(content) > _LIMIT:
        raise Fault("Input", message="larger than 64 MiB")
    return content


def _check_kind(found: os.stat_result) -> None:
    if stat.S_ISDIR(found.st_mode):
        raise Fault("Input", message="a folder: name its files, which git ls-files lists, or use the package for node")
    if not stat.S_ISREG(found.st_mode):
        raise Fault("Input", message="no regular file")
    if found.st_size > _LIMIT:
        raise Fault("Input", message="larger than 64 MiB")


def _file(path: Path, media_type: MediaType | None) -> tuple[str, ModuleInfo | Fault]:
    specifier = file_url(path)
    try:
        return specifier, module_info(read_file(path), specifier, media_type)
    except Fault as fault:
        return specifier, alone(fault)
