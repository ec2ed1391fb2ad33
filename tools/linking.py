"""Links programs and the library for C from what the prover, or a build without proofs, has compiled."""

import json
import shutil
import subprocess
from pathlib import Path

from building import Kit, Target, run
from sources import ROOT, BuildError

TABLE = ROOT / "docs/commands.json"
COMMANDS = [row[kind]["function"] for row in json.loads(TABLE.read_text())["commands"] for kind in ("answer", "check")]
LIBRARIES = ("libmodinfo.a", "libmodinfo.so")
# The LLVM module that the library for this machine's processor is made of. packaging/wasm/build reads it.
MODULE = "libmodinfo.bc"
# The program that needs no C library, which is made where musl's compiler is installed.
STATIC, MUSL = "modinfo_static", "musl-gcc"
EXPORTED = [f"modinfo_{function}" for function in (*COMMANDS, "run", "run_lines", "lines", "version")]


def link_program(target: Target, kit: Kit, main: Path, program: Path) -> None:
    words: list[str | Path]
    if target.name:
        words = [target.tool("gcc"), "-o", program, main, *target.compiled("heap", "arguments"), "-Wl,-z,relro,-z,now"]
    else:
        words = [kit.folder / "bin/rattle-link", "--target", "x86_64-unknown-linux-gnu"]
        words += ["--toolchain", kit.folder / "toolchain", "-o", program, main]
        words += [kit.folder / "c/libos_c.a", kit.folder / "c/liblibc_c.a"]
    linked = subprocess.run(words, stdout=subprocess.PIPE, stderr=subprocess.STDOUT, text=True, check=False)
    if linked.returncode != 0:
        raise BuildError(f"the program isn't linked: {linked.stdout.rstrip()}")


def can_link_static(target: Target) -> bool:
    return not target.name and shutil.which(MUSL) is not None


def link_static(kit: Kit, main: Path, program: Path) -> None:
    archives = [kit.folder / f"c/lib{name}.a" for name in ("os_c", "libc_c")]
    options = ["-static", "-O2", "-Wl,--wrap=main", "-Wl,-z,relro,-z,now"]
    run(MUSL, *options, "-o", program, main, ROOT / "packaging/musl_main.c", *archives)


def name_for_loader(folder: Path) -> None:
    """Gives the shared library in a folder the name that the loader looks for."""
    name = folder / "libmodinfo.so.0"
    if not name.is_symlink():
        name.symlink_to("libmodinfo.so")


def link_library(target: Target, kit: Kit, compiled: Path, folder: Path) -> None:
    """Puts libmodinfo.a and libmodinfo.so into a folder. They are one object, in which all but the exported functions
    are local, so that a program may link other libraries of the kit beside it. The section that names symbols by their
    numbers isn't true of the new object."""
    whole = folder / "libmodinfo.o"
    # The three functions that hand requests for memory on to malloc.
    heap = target.compiled("heap") if target.name else [kit.folder / "c/liblibc_c.a"]
    run(target.tool("ld"), "-r", "-o", whole, "--whole-archive", compiled, "--no-whole-archive", *heap)
    kept = (f"--keep-global-symbol={name}" for name in EXPORTED)
    run(target.tool("objcopy"), *kept, "--remove-section=.llvm_addrsig", whole)
    run(target.tool("ar"), "rcsD", folder / "libmodinfo.a", whole)
    options = ["-Wl,-soname,libmodinfo.so.0", "-Wl,-z,defs,-z,relro,-z,now"]
    run(target.tool("gcc"), "-shared", "-o", folder / "libmodinfo.so", *options, whole)
