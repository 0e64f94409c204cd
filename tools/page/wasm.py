"""The program for WebAssembly: the module of LLVM, compiled by the kit's clang for a memory of 64 bits and linked by
its LLD, with shim.c for what the program asks of its outside.
"""
import hashlib
import pathlib
import re
import tempfile

import module
from module import ROOT

HERE = pathlib.Path(__file__).resolve().parent
# Where programs for WebAssembly are kept, and how many.
KEPT, MOST = ROOT / "out" / "module", 4
TARGET = "--target=wasm64-unknown-unknown"
FEATURES = ["-mbulk-memory", "-msimd128"]
COMPILE = [TARGET, "-O2", *FEATURES, "-ffreestanding", "-fno-builtin", "-Wno-override-module", "-c"]
# The stack lies below all data, so that a program which needs more stops at its end and overwrites nothing.
STACK, MEMORY = 8 << 20, 4 << 30
LINK = ["-mwasm64", "--no-entry", "--stack-first", "-z", f"stack-size={STACK}", f"--max-memory={MEMORY}", "--strip-all"]
# The one instruction of x86-64 that the module names, by that of WebAssembly: a place with its highest bit gives 0, and
# of any other the low four bits count.
SHUFFLE, LOW = "@llvm.x86.ssse3.pshuf.b.128", "<" + ", ".join(["i8 143"] * 16) + ">"
SHUFFLED = f"""
declare <16 x i8> @llvm.wasm.swizzle(<16 x i8>, <16 x i8>)

define internal <16 x i8> @shuffled(<16 x i8> %from, <16 x i8> %places) alwaysinline nounwind {{
  %low = and <16 x i8> %places, {LOW}
  %found = call <16 x i8> @llvm.wasm.swizzle(<16 x i8> %from, <16 x i8> %low)
  ret <16 x i8> %found
}}
"""


def for_wasm(lines):
    """The lines of the module without what they say of their processor, and with another name for `main`."""
    for line in lines:
        if line.startswith(("target datalayout", "target triple", "declare <16 x i8> " + SHUFFLE)):
            continue
        if line.startswith("attributes #"):
            line = re.sub(r' "(target-cpu|target-features|tune-cpu)"="[^"]*"', "", line)
        yield line.replace("@main(", "@program(").replace(SHUFFLE, "@shuffled")
    yield SHUFFLED


def compiled(kit, is_proved, target):
    """Leaves the program for WebAssembly at this path."""
    tools = kit / "toolchain" / "bin"
    with tempfile.TemporaryDirectory(dir=target.parent) as name:
        room = pathlib.Path(name)
        text, objects, made = room / "page.ll", [room / "page.o", room / "shim.o"], room / "made.wasm"
        with open(text, "w", encoding="utf-8", errors="surrogateescape") as out:
            out.writelines(for_wasm(module.lines_of(kit, is_proved, room)))
        for source, to in zip((text, HERE / "shim.c"), objects):
            module.run([tools / "clang", *COMPILE, source, "-o", to], f"{source.name} could not be compiled")
        link = ["wasm-ld", *LINK, "-o", made, *objects]
        module.run(link, "the program could not be linked", executable=tools / "ld.lld")
        made.rename(target)


def kept(kit, is_proved):
    """The path of the program for WebAssembly, which is compiled where it is not kept."""
    total = hashlib.sha256(repr((is_proved, module.sum_of_sources(kit, is_proved), COMPILE, LINK)).encode())
    for file in (HERE / "shim.c", HERE / "module.py", HERE / "wasm.py", kit / "KIT-ID"):
        total.update(file.read_bytes())
    KEPT.mkdir(parents=True, exist_ok=True)
    path = KEPT / f"{total.hexdigest()[:32]}.wasm"
    if not path.is_file():
        compiled(kit, is_proved, path)
        for old in sorted(KEPT.glob("*.wasm"), key=lambda it: it.stat().st_mtime)[:-MOST]:
            old.unlink(missing_ok=True)
    return path
