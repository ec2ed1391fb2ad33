"""Makes an LLVM module for WebAssembly with a memory of 64 bits of the library's module for x86-64. Pointers and
`usize` have 64 bits in both, so no offset moves."""

import re

from sources import BuildError

# The one instruction that the module names: it looks 16 bytes up, with zero where an index has its highest bit.
# Swizzle has zero from the index 16 on, so the bits between are cleared.
SHUFFLE = "llvm.x86.ssse3.pshuf.b.128"
LOOK_UP = """
define internal <16 x i8> @look_up(<16 x i8> %table, <16 x i8> %indices) alwaysinline nounwind {
  %masked = and <16 x i8> %indices, splat (i8 -113)
  %found = call <16 x i8> @llvm.wasm.swizzle(<16 x i8> %table, <16 x i8> %masked)
  ret <16 x i8> %found
}
declare <16 x i8> @llvm.wasm.swizzle(<16 x i8>, <16 x i8>)
"""
OF_X86 = re.compile(r' "(?:frame-pointer|probe-stack|stack-probe-size|target-cpu)"="[^"]*"| sanitize_address\b')
EMPTY = re.compile(r"^(attributes #\d+ = \{) \}$", re.MULTILINE)
# What core.c calls, by the names in Rattle and in C. Of the other exported functions nothing is compiled.
CALLED = "modinfo_(?:version|run|analyze_source|check_source)"
DEFINED = re.compile(rf'^define internal (.*@)"modinfo_c::({CALLED})"', re.MULTILINE)
NAMED = re.compile(rf'@"modinfo_c::({CALLED})"')
LEFT_OUT = re.compile(rf"^define (?=[^(\n]*@(?!{CALLED}\()modinfo_\w+\()", re.MULTILINE)
# A program's start, of a library that was compiled as a program without proofs.
MAIN = re.compile(r"^define [^\n]*@main\(.*?^\}$", re.MULTILINE | re.DOTALL)
LEFT = re.compile(r"@llvm\.x86\.[\w.]+|\bx86_\w+|\basm\b[^\n]*", re.MULTILINE)


def rewritten(module: str, head: str) -> str:
    """Returns the module as text. `head` has the data layout and the triple of the new target.

    Raises BuildError if something of x86 is left.
    """
    lines = [line for line in module.splitlines() if not line.startswith(("target ", f"declare <16 x i8> @{SHUFFLE}"))]
    text = EMPTY.sub(r"\1 nounwind }", OF_X86.sub("", "\n".join([head, *lines, ""])))
    if f"@{SHUFFLE}(" in text:
        text = text.replace(f"@{SHUFFLE}(", "@look_up(") + LOOK_UP
    if "@modinfo_version(" not in text:
        # Without proofs the functions are those of a program, by their names in Rattle.
        text = DEFINED.sub(r"define \1\2", text)
        text = NAMED.sub(r"@\1", text)
    text = LEFT_OUT.sub("define internal ", MAIN.sub("", text))
    if left := LEFT.search(re.sub(r'c"[^"]*"', "", text)):
        raise BuildError(f"the module has {left[0]}, which is for x86 alone")
    return text
