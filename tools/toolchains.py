"""Folders of tools like the kit's, with a compiler that keeps a file of what it compiles."""

from pathlib import Path

# Copies the LLVM module of a library, from which the WebAssembly module is made too, and goes on.
KEEPS_MODULE = """#!/bin/sh
[ ! -e module.bc ] || /bin/cp module.bc {made}
exec {kit}/toolchain/bin/clang "$@"
"""


def write_tools(kit: Path, folder: Path, compiler: str) -> Path:
    """Returns a folder with the tools of the kit, but for the compiler, which is a script."""
    (folder / "bin").mkdir(parents=True, exist_ok=True)
    if not (folder / "lib").is_symlink():
        (folder / "lib").symlink_to(kit / "toolchain/lib")
    for tool in (kit / "toolchain/bin").iterdir():
        (folder / "bin" / tool.name).unlink(missing_ok=True)
        (folder / "bin" / tool.name).symlink_to(tool)
    (folder / "bin/clang").unlink()
    (folder / "bin/clang").write_text(compiler)
    (folder / "bin/clang").chmod(0o755)
    return folder


def tools_that_keep(kit: Path, folder: Path, made: Path) -> Path:
    """Returns a folder of tools whose compiler copies the LLVM module to a file."""
    return write_tools(kit, folder, KEEPS_MODULE.format(kit=kit, made=made))
