"""The module of LLVM that the program matchcheck is compiled from.

Of the proved program the module comes from a build over the libraries that are proved here. Its compiler is a script
that keeps the module and then compiles it. The program that is linked from it has to have the bytes of the proved
program in crates/matchcheck/out, or the module is not taken. So the page's program has the proved program's module,
whatever the build trusted.

An unproved build, for trials, keeps what `rt try` gives the compiler. The tests that `rt try` puts in are taken out
by bench/untested.py.
"""
import contextlib
import hashlib
import io
import os
import pathlib
import subprocess
import sys

ROOT = pathlib.Path(__file__).resolve().parent.parent.parent
sys.path[:0] = [str(ROOT / "tools" / "door"), str(ROOT / "bench")]
import programs  # noqa: E402
import untested  # noqa: E402

NAME = "matchcheck"
CRATE = ROOT / "crates" / NAME
PROGRAM, STAMP = CRATE / "out" / NAME, CRATE / "out" / f"{NAME}.stamp"
KEEPING = """#!/bin/sh
# Keeps the module, which is the greatest input, and then compiles it{so}.
output= before=
for word; do
    [ "$before" != -o ] || output=$word
    before=$word
    case $word in *.bc)
        [ -f {room}/module.bc ] && [ "$(stat -c %s {room}/module.bc)" -ge "$(stat -c %s "$word")" ] ||
            cp "$word" {room}/module.bc
        ;;
    esac
done
{then}
"""
COMPILING = 'exec {tools}/clang "$@"'
NOT_COMPILING = 'exec {tools}/clang --target=x86_64-unknown-linux-gnu -c -x assembler /dev/null -o "$output"'


class Fault(Exception):
    """Why there is no module, in one line."""


def keeping(kit, room, then, so):
    """The kit's tools by links, with a compiler that keeps the module in the room."""
    tools = kit / "toolchain" / "bin"
    programs.link_all(kit / "toolchain", room / "toolchain", ("bin",))
    programs.link_all(tools, room / "toolchain" / "bin", ("clang",))
    text = KEEPING.replace("{then}", then).replace("{so}", so)
    programs.write_tool(room / "toolchain/bin/clang", text, room=room, tools=tools)
    return room / "toolchain"


def said_last(text):
    """The line of a tool's output that says best why it ended."""
    lines = [line for line in text.splitlines() if line.strip()] or ["it said nothing"]
    return next((line.strip() for line in lines if line.startswith("rattle") or "error" in line), lines[-1])


def run(words, what, **how):
    """Runs a tool of the kit, or tells in one line what it could not do."""
    done = subprocess.run(words, stdin=subprocess.DEVNULL, capture_output=True, text=True, errors="replace", **how)
    if done.returncode:
        raise Fault(f"{what}: {said_last(done.stdout + done.stderr)}")


def words_of_build(kit):
    """The words by which `rt run` has the program built, but for the tools and the output."""
    sys.dont_write_bytecode = True
    sys.path.insert(0, str(kit / "bin"))
    with contextlib.redirect_stdout(io.StringIO()), contextlib.redirect_stderr(io.StringIO()):
        of_rt = programs.loaded("rt_of_kit", kit / "bin" / "rt")
        crate = sys.modules["rtlib"].Crate(os.path.realpath(CRATE), os.path.realpath(ROOT), {})
        of_rt.read_files(crate)
        lacking = [it.name for it in crate.below() if not os.path.isdir(it.rlib)]
        if lacking:
            raise Fault(f"no library is built of {', '.join(lacking[:3])}: `cd crates/{NAME} && rt run` builds them")
        return crate.words([], keeps=False)


def proved_stamp(kit):
    """The stamp of the proved program, if it was proved from the sources here."""
    stamp = STAMP.read_text(errors="replace") if STAMP.is_file() else ""
    if not stamp or not programs.is_proved(kit, NAME, stamp):
        raise Fault(f"no program is proved from the sources here: `cd crates/{NAME} && rt run` proves and builds it")
    return stamp


def proved(kit, room):
    """Leaves the proved program's module in the room."""
    tools = keeping(kit, room, COMPILING, "")
    words = [kit / "bin/rattle", "build", *words_of_build(kit), "--toolchain", tools, "--backend", "llvm"]
    run([*words, "-o", room / "program.o"], "the program could not be built again", cwd=CRATE)
    link = [kit / "bin/rattle-link", "--target", "x86_64-unknown-linux-gnu", "--toolchain", kit / "toolchain"]
    libraries = [kit / "c/libos_c.a", kit / "c/liblibc_c.a"]
    run([*link, "-o", room / "program", room / "program.o", *libraries], "the program could not be linked again")
    if (room / "program").read_bytes() != PROGRAM.read_bytes():
        raise Fault("the module that was kept makes another program than the proved one")
    return room / "module.bc"


def unproved(kit, room):
    """Leaves the module of an unproved build in the room, as it would be of a proved one."""
    keeping(kit, room, NOT_COMPILING, " to nothing")
    folder = room / "kit"
    programs.link_all(kit, folder, ("bin", "toolchain"))
    programs.link_all(kit / "bin", folder / "bin", ("rt", "rtlib.py", "rattle"))
    for name in ("rt", "rtlib.py"):
        (folder / "bin" / name).write_bytes((kit / "bin" / name).read_bytes())
        (folder / "bin" / name).chmod(0o755)
    # `rt try` starts a check beside the build, for a hint alone: here it is not wanted.
    programs.write_tool(folder / "bin" / "rattle", "#!/bin/sh\nexit 1\n")
    (folder / "toolchain").symlink_to(room / "toolchain")
    what, kept = "the program could not be built", room / "module.bc"
    try:
        run([folder / "bin/rt", "try"], what, cwd=CRATE, env={**os.environ, "TMPDIR": str(room)})
    except Fault:
        # Nothing is compiled, so `rt try` fails behind the module.
        if not kept.is_file():
            raise
    return kept


def readable(kit, module, room):
    """The module as text."""
    text = room / "module.ll"
    words = [kit / "toolchain/bin/clang", "-S", "-emit-llvm", "-Xclang", "-disable-llvm-passes", "-x", "ir", module]
    run([*words, "-o", text], "the module could not be read")
    return text


def sum_of_sources(kit, is_proved):
    """The sum of all that the module is made from: it names the module."""
    if is_proved:
        return hashlib.sha256(proved_stamp(kit).encode()).hexdigest()
    return programs.unproved_sum(kit, NAME)


def lines_of(kit, is_proved, room):
    """The lines of the module, as text."""
    module = (proved if is_proved else unproved)(kit, room)
    with open(readable(kit, module, room), encoding="utf-8", errors="surrogateescape") as lines:
        yield from lines if is_proved else untested.untested(lines, untested.marked(ROOT / "crates"))
