"""Builds a program over crates of this repository that is timed: as `rt try` builds, which proves nothing, but by a copy of the toolchain's
folder whose compiler first takes out of the module what `rt try` put in (the tests that a proof makes needless, and the filling of places that are
not written yet), puts in that marked functions are to be inlined, and then compiles at -O3, as `rt run` compiles what is proved.
"""
import os
import pathlib
import shutil
import subprocess
import sys
import tempfile

import constructors
from constructors import over_families, told
from measuring import least_so_far, write

HERE = pathlib.Path(__file__).resolve().parent
ROOT = HERE.parent
READER = ("words", "types", "patterns")
# Times from here on are judged, in seconds.
SHORTEST = 0.00005
COUNTS = {}
CLANG = """#!/usr/bin/env python3
import os, pathlib, subprocess, sys
sys.path.insert(0, "{bench}")
from untested import marked, untested
words = ["-O3" if word == "-O0" else word for word in sys.argv[1:] if word != "-fsanitize=address"]
if "module.bc" in words and "-fsanitize=address" in sys.argv:
    subprocess.run(["{tools}/clang", "-S", "-emit-llvm", "-O0", "-x", "ir", "module.bc", "-o", "tested.ll"], check=True)
    with open("tested.ll") as tested, open("module.ll", "w") as module:
        module.writelines(untested(tested, marked(pathlib.Path("{crates}"))))
    words[words.index("module.bc")] = "module.ll"
os.execv("{tools}/clang", ["clang"] + words)
"""
LINKER = """#!/usr/bin/env python3
import subprocess, sys
words = ["{tools}/ld.lld"] + sys.argv[1:]
status = subprocess.call(words)
first, last = words.index("--whole-archive"), words.index("--no-whole-archive")
words[first : last + 1] = []
words[words.index("-o") + 1] = "{target}"
subprocess.call(words)
sys.exit(status)
"""


def link_all(source, target, but=()):
    """A folder with links to all that stands in another one."""
    target.mkdir(parents=True)
    for it in source.iterdir():
        if it.name not in but:
            (target / it.name).symlink_to(it)


def optimising(folder, target):
    """A copy of the kit, by links, whose compiler optimises, and whose linker links the target too; the path of its `rt`."""
    kit = pathlib.Path(os.path.realpath(shutil.which("rt"))).parent.parent
    link_all(kit, folder, ("bin", "toolchain"))
    link_all(kit / "bin", folder / "bin", ("rt", "rtlib.py"))
    for name in ("rt", "rtlib.py"):
        shutil.copy(kit / "bin" / name, folder / "bin" / name)
    link_all(kit / "toolchain", folder / "toolchain", ("bin",))
    tools = kit / "toolchain" / "bin"
    link_all(tools, folder / "toolchain" / "bin", ("clang", "ld.lld"))
    for name, text in (("clang", CLANG), ("ld.lld", LINKER)):
        path = folder / "toolchain" / "bin" / name
        path.write_text(text.format(tools=tools, target=target, bench=HERE, crates=ROOT / "crates"))
        path.chmod(0o755)
    return folder / "bin" / "rt"


def needed(crates):
    """The lines of crates.txt of these crates and of those that they stand on, in its order."""
    lines = {line.split(":")[0].split()[0]: line for line in (ROOT / "crates.txt").read_text().splitlines() if ":" in line}
    found, open_names = set(), list(crates)
    while open_names:
        name = open_names.pop()
        if name in lines and name not in found:
            found.add(name)
            open_names += lines[name].split(":")[1].split()
    return [line for name, line in lines.items() if name in found]


def copied(folder, crates, name, main):
    """A copy of these crates and of those below them, with a program of this name: the reader of tests/engine, and the text of its main file."""
    lines = needed(crates)
    names = [line.split(":")[0] for line in lines]
    for crate in names:
        shutil.copytree(ROOT / "crates" / crate, folder / "crates" / crate, ignore=shutil.ignore_patterns("must-fail", "out"))
    (folder / "crates.txt").write_text("\n".join(lines + ["%s: %s bumpalo" % (name, " ".join(names))]) + "\n")
    program = folder / "crates" / name
    (program / "src").mkdir(parents=True)
    for part in READER:
        shutil.copy(ROOT / "tests/engine/program/src" / f"{part}.rt.txt", program / "src" / f"{part}.rt")
    (program / "src/main.rt").write_text(main)
    return program


def build(target, crates, name, main):
    """Builds the program."""
    pathlib.Path(target).unlink(missing_ok=True)
    with tempfile.TemporaryDirectory() as room:
        folder = pathlib.Path(room)
        rt = optimising(folder / "kit", target)
        program = copied(folder / "repository", crates, name, main)
        done = subprocess.run([str(rt), "try"], cwd=program, input="", capture_output=True, text=True)
        if not os.path.isfile(target):
            sys.exit(done.stdout + done.stderr)


def took(program, path, count, runs):
    """The processor time of doing so many times more than once what the program does with the match, each the least of all runs so far."""
    often, once = (least_so_far(["sh", "-c", f"exec {program} {k} < {path}"], runs) for k in (count + 1, 1))
    return max(often - once, 0.0)


def times(program, path):
    """How often it is done in about a fifth of a second, so that the start of a program does not count."""
    count = 16
    while (spent := took(program, path, count, 1)) < 0.05 and count < 65_536:
        count *= 4
    return max(1, int(count * 0.2 / max(spent, 1e-3)))


def ours(words, name, n):
    """The program's time of doing once what it does with a match of a family."""
    path = write(f"family_{name}_{n}.matches", told(words.engine, name, n))
    if path not in COUNTS:
        COUNTS[path] = times(words.program, path)
    count = COUNTS[path]
    return took(words.program, path, count, words.times) / count


def time_families(description, families, step, word, crates, program):
    """Builds the program of a folder over these crates, where the command line asks for it by `--build`, or else measures the families: the program beside the
    step of the engine whose time has this word."""
    if sys.argv[1:2] == ["--build"] and len(sys.argv) == 3:
        build(os.path.abspath(sys.argv[2]), crates, "step_times", (program / "src/main.rt.txt").read_text())
    else:
        constructors.SHORTEST = SHORTEST
        sys.exit(over_families(description, families, ours, step, word, True))
