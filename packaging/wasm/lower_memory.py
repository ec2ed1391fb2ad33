"""Makes a WebAssembly module with a memory of 32 bits of one with a memory of 64 bits: each address gets an
`i32.wrap_i64`, in the module's text, which has one instruction a line. Each address has to be below 4 GiB, as it is
where the memory is smaller and no access is out of bounds. Other integers stay as they are. `wat2wasm` refuses a module
in which an address was overlooked, since that one has 64 bits.
"""

import re
from pathlib import Path

from building import printed, run
from sources import BuildError

# The linker's empty table, whose indices have 64 bits, and the number of the section after it. `wasm2wat` reads no
# such table.
TABLE, NARROW_TABLE = b"\4\5\1\x70\5\1\1\5", b"\4\5\1\x70\1\1\1\5"
HEAD = re.compile(r"^  \(func .*[^)]\)\n(?:    \(local .*\n)?", re.MULTILINE)
ACCESS = re.compile(r"^ +((?:(i32|i64|f32|f64|v128)\.(?:load|store)|memory\.)\w*)", re.MULTILINE)
SEGMENT = re.compile(r"^(  \(data [^\"]*)\(i64\.const", re.MULTILINE)
# Each function gets a local of each type for the value on top of an address, and one for a size on top of that.
LOCALS = "".join(f"(local ${name} {name})" for name in ("i32", "i64", "f32", "f64", "v128")) + "(local $size i32)\n"
WRAP = "i32.wrap_i64"
SUM = re.compile(r"i64\.const (-?\d+)\n +i64\.add\n +i32\.wrap_i64$", re.MULTILINE)
BELOW_SIZE = f"{WRAP} local.set $size %s local.set $i32 {WRAP} local.get $i32 local.get $size"
OF_MEMORY = {
    "memory.size": "memory.size i64.extend_i32_u",
    "memory.grow": f"{WRAP} memory.grow i64.extend_i32_s",
    "memory.fill": f"{BELOW_SIZE % ''} memory.fill",
    "memory.copy": f"{BELOW_SIZE % WRAP} memory.copy",
}


def wrapped(access: re.Match[str]) -> str:
    """An instruction, after code that wraps its address."""
    name, kind = access.groups()
    if name in OF_MEMORY:
        return OF_MEMORY[name]
    is_load = "load" in name and not name.endswith("_lane")
    return f"{WRAP} {name}" if is_load else f"local.set ${kind} {WRAP} local.get ${kind} {name}"


def lower(wide: Path, narrow: Path) -> None:
    """Reads a module without names, and writes the new one."""
    module = wide.read_bytes()
    if module.count(TABLE) != 1:
        raise BuildError("the linker wrote another table")
    wide.write_bytes(module.replace(TABLE, NARROW_TABLE))
    text = printed("wasm2wat", "--enable-memory64", str(wide))
    text = HEAD.sub(lambda head: head[0] + LOCALS, ACCESS.sub(wrapped, text))
    lowered = narrow.with_suffix(".wat")
    lowered.write_text(SEGMENT.sub(r"\1(i32.const", text).replace("(memory (;0;) i64 ", "(memory (;0;) "))
    run("wat2wasm", lowered, "-o", narrow)


def narrow_sums(module: Path, narrow: Path) -> None:
    """Reads the new module, and writes one that wraps addresses before it adds constants, which may become offsets."""
    text = SUM.sub(lambda found: f"{WRAP} i32.const {int(found[1]) % 2**32} i32.add", printed("wasm2wat", str(module)))
    narrow.with_suffix(".wat").write_text(text)
    run("wat2wasm", narrow.with_suffix(".wat"), "-o", narrow)
