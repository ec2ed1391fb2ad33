"""Puts libmodinfo.so into the wheel, and whether that is proved into its metadata. Tags the wheel by what the library
needs.

A library that isn't proved is refused, unless the environment has MODINFO_UNCHECKED=1.
"""

import hashlib
import os
import re
import sys
from pathlib import Path
from typing import Any

from elftools.elf.elffile import ELFFile
from elftools.elf.gnuversions import GNUVerNeedSection
from setuptools import Distribution, setup
from setuptools.command.build_py import build_py
from wheel.bdist_wheel import bdist_wheel

LIBRARY = "libmodinfo.so"
HERE = Path(__file__).resolve().parent
# The libraries that each manylinux system has, of which this one may need any.
ALLOWED = {"libc.so.6", "libm.so.6", "libpthread.so.0", "libdl.so.2", "ld-linux-x86-64.so.2", "ld-linux-aarch64.so.1"}
UNCHECKED = "This build is unchecked: nothing is proved of it."
MACHINES = {"x64": "x86_64", "AArch64": "aarch64"}
# The oldest manylinux of which every pip for Python 3.10 knows.
OLDEST_GLIBC = (2, 17)


def fail(message: str) -> None:
    sys.exit(f"modinfo: {message}")


def library() -> Path:
    path = place()
    if not path.is_file():
        fail(
            f"{path} not found. The package is built with the library modinfo: set MODINFO_LIB_DIR to the folder of "
            f"{LIBRARY}, which tools/build_library of the repository makes and the package libmodinfo0 of Debian "
            "installs; or install the wheel that bindings/python/make_wheel makes"
        )
    if origin(path)[0] != "proved" and not os.environ.get("MODINFO_UNCHECKED"):
        fail(
            f"{path} isn't proved, by the stamp beside it: run tools/build_library, or say --unchecked to "
            "bindings/python/make_wheel, or set MODINFO_UNCHECKED=1"
        )
    return path


def place() -> Path:
    """The library in the folder MODINFO_LIB_DIR or, where that isn't set, in build/ of the repository."""
    return Path(os.environ.get("MODINFO_LIB_DIR") or HERE / "../../build") / LIBRARY


def origin(path: Path) -> tuple[str, str]:
    """Whether a library is proved, and the hash of its sources: by the stamp beside it or, where tools/install has put
    it, by the file for pkg-config. Unchecked where there is neither, or the stamp is of another file."""
    stamp, installed = path.with_name(f"{LIBRARY}.origin"), path.parent / "pkgconfig/modinfo.pc"
    if stamp.is_file():
        kind, *rest = stamp.read_text().splitlines()
        named = dict(line.split(" ", 1) for line in rest)
        if named.get("file") == hashlib.sha256(path.read_bytes()).hexdigest():
            return kind, named.get("sources", "unknown")
    elif installed.is_file():
        named = dict(line.split("=", 1) for line in installed.read_text().splitlines() if "=" in line)
        return named.get("build", "unchecked"), named.get("sources", "unknown")
    return "unchecked", "unknown"


def claim(page: str) -> str:
    """The page's sentence about what is proved."""
    [sentence] = re.findall(r"formats: claim -->\n(.*?\.) ", page)
    return str(sentence)


def metadata() -> dict[str, Any]:
    """The description and the keywords, which have whether the library is proved. An archive of the sources has none of
    that, since it has no library."""
    about = "What one JavaScript or TypeScript module depends on, from its text"
    page, keywords = (HERE / "README.md").read_text(), ["javascript", "typescript", "dependencies", "imports"]
    if not place().is_file():
        return {"description": about, "long_description": page, "keywords": keywords}
    kind, sources = origin(place())
    is_proved = kind == "proved"
    return {
        "description": f"{about}. {claim(page) if is_proved else UNCHECKED}",
        "long_description": page if is_proved else f"{UNCHECKED}\n\n{page}",
        "keywords": [*keywords, f"modinfo-build={kind}", f"modinfo-sources={sources}"],
    }


def platform(path: Path) -> str:
    """The tag of the oldest manylinux that has all versions of symbols that a library needs, as PEP 600 has it."""
    with open(path, "rb") as file:
        elf = ELFFile(file)
        versions = [OLDEST_GLIBC]
        for section in elf.iter_sections():
            if isinstance(section, GNUVerNeedSection):
                for needed, names in section.iter_versions():
                    if needed.name not in ALLOWED:
                        fail(f"{path} needs {needed.name}, which a manylinux system needn't have")
                    versions += [glibc_version(path, name.name) for name in names]
        machine = MACHINES[elf.get_machine_arch()]
    major, minor = max(versions)
    return f"manylinux_{major}_{minor}_{machine}"


def glibc_version(path: Path, name: str) -> tuple[int, int]:
    numbers = re.fullmatch(r"GLIBC_(\d+)\.(\d+)(?:\.\d+)?", name)
    if numbers is None:
        fail(f"{path} needs {name}, which no version of manylinux names")
        raise AssertionError
    return int(numbers[1]), int(numbers[2])


class BuildWithLibrary(build_py):
    def run(self) -> None:
        if getattr(self, "editable_mode", False):
            fail(
                "an editable install would have no library. Make a wheel by bindings/python/make_wheel FOLDER, "
                "and install that"
            )
        super().run()
        made = library()
        for file in made, made.with_name(f"{LIBRARY}.origin"):
            if file.is_file():
                self.copy_file(str(file), str(Path(self.build_lib) / "modinfo" / file.name))


class PlatformDistribution(Distribution):
    def has_ext_modules(self) -> bool:
        return True


class PlatformWheel(bdist_wheel):
    def get_tag(self) -> tuple[str, str, str]:
        return "py3", "none", platform(library())


setup(
    **metadata(),
    long_description_content_type="text/markdown",
    distclass=PlatformDistribution,
    cmdclass={"build_py": BuildWithLibrary, "bdist_wheel": PlatformWheel},
)
