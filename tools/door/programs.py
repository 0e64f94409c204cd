#!/usr/bin/env python3
"""Finds the program that ./matchcheck runs, and builds it without a proof where there is none.

    programs.py find NAME      finds the program, and builds it first where there is none
    programs.py look NAME      the same, but builds nothing; status 1 where there is none
    programs.py sum NAME       the sum of what a proof of the program reads here
    programs.py note NAME SUM  leaves the stamp of a program that was proved; status 1 where the sum is another one

The proved program is crates/NAME/out/NAME where the stamp beside it is the sum of the sources and the kit here, and
ends with the sum of the program's own bytes. The kit's own code computes that sum. `rt run` leaves the stamp. `rt ci`
leaves the program alone, so `.ci/run` takes the sum before it, and notes the program where it passed.
Else it is out/unproved/NAME-SUM, where SUM covers the kit, the lines of crates.txt and the `.rt` files of the crates
that the program stands on. `rt try` builds such a program anew at each call, with the address sanitizer, and throws
it away. Here `rt try` runs in a folder of links to the kit. Its compiler leaves the sanitizer out, and its linker
makes code of what can be reached, and keeps the program. The tests that `rt try` puts in stay: the program stops at a
sum that overflows or an index out of bounds.

One build of a program runs at a time: the others wait for its lock, which the system takes back when its owner dies.
Each build has a folder of its own, since a linker may outlive its owner and write later.
A build ends with a rename, so what was cut off is never taken for whole.

Prints three lines: the program's path from the top, `proved` or `unproved`, and why it is unproved. Where it can
write, it writes them to out/unproved/NAME.record too, and beside it lists of what the program was made from, so that
./matchcheck need not ask again.
"""
import contextlib
import ctypes
import fcntl
import hashlib
import importlib.machinery
import importlib.util
import io
import os
import pathlib
import re
import shlex
import shutil
import signal
import subprocess
import sys
import tempfile
import time

ROOT = pathlib.Path(__file__).resolve().parent.parent.parent
KEPT = ROOT / "out" / "unproved"
# How many unproved builds of one program are kept.
MOST = 4
NOT_BUILT, NO_TOOL = 125, 127
# The time between two looks at a build, and between two lines about it, in seconds.
LOOK, TELL = 0.2, 15
# What the linker does with the program before it makes code of it, and the level at which it makes code. Without these
# passes a build takes as long, since code is made of more, and the program takes four times as long.
PASSES, LEVEL = "globaldce,function(sroa,early-cse,instcombine<no-verify-fixpoint>,simplifycfg,dse)", 0
CLANG = """#!/bin/sh
# Keeps the module for the linker, and gives `rt try`, which wants an object file, an empty one.
input= output= before=
for word; do
    [ "$before" != -o ] || output=$word
    case $word in *.bc) input=$word ;; esac
    before=$word
done
cp "$input" {room}/own.bc &&
    {tools}/clang --target=x86_64-unknown-linux-gnu -c -x assembler /dev/null -o "$output"
"""
LINKER = """#!/bin/sh
# Links the module in place of the empty object file, which is the first input, and without the archive of the
# sanitizer, to a place of our own. `rt try` gets a copy.
: > {room}/compiling
inside= output= before=
for word; do
    shift
    this=$word
    [ "$before" != -o ] || {{ output=$word word={room}/made; }}
    [ "$word" != input-0 ] || word={room}/own.bc
    before=$this
    case $word in
        --whole-archive) inside=yes ;;
        --no-whole-archive) inside= ;;
        *) [ -n "$inside" ] || set -- "$@" "$word" ;;
    esac
done
{tools}/ld.lld --lto-newpm-passes={passes} --lto-CGO{level} "$@" && : > {room}/linked &&
    cp {room}/made "$output"
"""


def say(text):
    print(f"matchcheck: {text}", file=sys.stderr, flush=True)


def fail(status, text):
    say(text)
    sys.exit(status)


def kit_of_path():
    """The folder of the kit whose `rt` is on the PATH, and the path of that `rt`."""
    rt = shutil.which("rt")
    if rt is None:
        fail(NO_TOOL, "rt is not on the PATH: install the kit that README.md names, or put its folder bin there")
    return pathlib.Path(os.path.realpath(rt)).parent.parent, rt


def crates_below(name, top=ROOT):
    """The lines of crates.txt of the crates that the program is made of, by their names."""
    lines = (line.partition("#")[0].strip() for line in (top / "crates.txt").read_text().splitlines())
    known = {line.partition(":")[0].split()[0]: line for line in lines if line}
    found, open_names = {}, [name]
    while open_names:
        it = open_names.pop()
        if it in known and it not in found:
            found[it] = known[it]
            open_names += known[it].partition(":")[2].split()
    if name not in found:
        fail(NOT_BUILT, f"crates.txt has no line for {name}")
    return found


def unproved_sum(kit, name, top=ROOT):
    """The sum of all that the unproved program is made from, in the repository at this folder."""
    total = hashlib.sha256(f"{PASSES} {LEVEL}\n{CLANG}{LINKER}".encode())
    for file in (kit / "KIT-ID", kit / "WHAT"):
        total.update(file.read_bytes() if file.is_file() else b"")
    for crate, line in sorted(crates_below(name, top).items()):
        folder = top / "crates" / crate / "src"
        total.update(f"{line}\n".encode())
        for file in sorted(folder.rglob("*.rt")):
            total.update(repr((str(file.relative_to(folder)), file.read_bytes())).encode())
    return total.hexdigest()[:32]


def last_change(name, top):
    """When a source of the program last changed, as the system counts it: also where it has its old text again."""
    folders = [top / "crates" / crate / "src" for crate in crates_below(name, top)]
    files = [top / "crates.txt", *(file for folder in folders for file in folder.rglob("*.rt"))]
    return max(file.stat().st_ctime_ns for file in files)


def loaded(name, path):
    """A file of the kit's own code, as a module."""
    loader = importlib.machinery.SourceFileLoader(name, str(path))
    module = importlib.util.module_from_spec(importlib.util.spec_from_loader(name, loader))
    sys.modules[name] = module
    loader.exec_module(module)
    return module


def stamp_here(kit, name):
    """What the stamp of a program says that was proved from the sources here, without the program's own sum, or None
    where the kit's code does not tell. Crates with C code, whose stamps say more, are never taken for proved."""
    sys.dont_write_bytecode = True
    sys.path.insert(0, str(kit / "bin"))
    try:
        with contextlib.redirect_stdout(io.StringIO()), contextlib.redirect_stderr(io.StringIO()):
            of_rt = loaded("rt_of_kit", kit / "bin" / "rt")
            folder, top = os.path.realpath(ROOT / "crates" / name), os.path.realpath(ROOT)
            crate = sys.modules["rtlib"].Crate(folder, top, {})
            of_rt.read_files(crate)
            return crate.stamp()
    except (Exception, SystemExit):
        return None


def is_proved(kit, name, stamp):
    """Whether the program in the crate's folder is proved, from the sources here, by its stamp."""
    program = ROOT / "crates" / name / "out" / name
    if not program.is_file():
        return False
    here = stamp_here(kit, name)
    return here is not None and stamp == here + hashlib.sha256(program.read_bytes()).hexdigest()


def link_all(source, target, but=()):
    """A folder with links to all that another one has, but for these names."""
    target.mkdir(parents=True)
    for it in source.iterdir():
        if it.name not in but:
            (target / it.name).symlink_to(it)


def write_tool(path, text, **words):
    """A script for the shell, with these words in it: a folder's name may have any character."""
    path.write_text(text.format(**{name: shlex.quote(str(word)) for name, word in words.items()}))
    path.chmod(0o755)


def kit_that_keeps(kit, room):
    """A folder of links to the kit, whose linker keeps the program in the room; the path of its `rt`."""
    folder, tools = room / "kit", kit / "toolchain" / "bin"
    link_all(kit, folder, ("bin", "toolchain"))
    link_all(kit / "bin", folder / "bin", ("rt", "rtlib.py", "rattle"))
    for it in ("rt", "rtlib.py"):
        shutil.copy(kit / "bin" / it, folder / "bin" / it)
    # `rt try` starts a check beside the build, for a hint alone: here it is not wanted.
    write_tool(folder / "bin" / "rattle", "#!/bin/sh\nexit 1\n")
    link_all(kit / "toolchain", folder / "toolchain", ("bin",))
    link_all(tools, folder / "toolchain" / "bin", ("clang", "ld.lld"))
    write_tool(folder / "toolchain/bin/clang", CLANG, tools=tools, room=room)
    write_tool(folder / "toolchain/bin/ld.lld", LINKER, tools=tools, room=room, passes=PASSES, level=LEVEL)
    return folder / "bin" / "rt"


def end_with_parent():
    """Has the system end this process when the one that started it dies."""
    ctypes.CDLL(None).prctl(1, signal.SIGTERM)


def step_of(room):
    """The step that a build has come to, in words."""
    if (room / "compiling").exists():
        return "step 2 of 2, compiling"
    return "step 1 of 2, reading the sources"


def wait_for(build, name, room):
    """Waits for a build, and says in between how far it is: each step where it begins, and then now and then."""
    begun, told, last = time.monotonic(), "", 0.0
    while True:
        step, passed = step_of(room), time.monotonic() - begun
        if step != told or passed - last >= TELL:
            say(f"building {name}: {step}, {passed:.0f} s")
            told, last = step, passed
        with contextlib.suppress(subprocess.TimeoutExpired):
            return build.wait(LOOK)


def first_fault(text):
    """The line that says best why a build failed."""
    lines = [line.strip() for line in text.splitlines() if line.strip()]
    return next((line for line in lines if "error" in line), lines[0] if lines else "it said nothing")


def room_of_build(name):
    """A new folder for one build of a program. Those of builds that were cut off are removed: the lock is ours."""
    for old in KEPT.glob(f"{name}.room*"):
        shutil.rmtree(old, ignore_errors=True)
    return pathlib.Path(tempfile.mkdtemp(prefix=f"{name}.room.", dir=KEPT))


def build(kit, folder, target):
    """Has `rt try` build the program of a crate's folder, and keeps what was linked."""
    name = folder.name
    room = room_of_build(name)
    rt = kit_that_keeps(kit, room)
    said = room / "said"
    with open(said, "wb") as out:
        how = {"cwd": folder, "stdin": subprocess.DEVNULL, "stdout": out, "stderr": out}
        env = {**os.environ, "TMPDIR": str(room)}
        build_of = subprocess.Popen([rt, "try"], env=env, preexec_fn=end_with_parent, **how)
        try:
            wait_for(build_of, name, room)
        except (KeyboardInterrupt, SystemExit):
            build_of.terminate()
            build_of.wait()
            shutil.rmtree(room, ignore_errors=True)
            fail(130, f"the build of {name} was interrupted; nothing of it is kept")
    made, log = room / "made", KEPT / f"{name}.log"
    log.unlink(missing_ok=True)
    if not (room / "linked").is_file():
        os.replace(said, log)
        shutil.rmtree(room, ignore_errors=True)
        fault = first_fault(log.read_text(errors="replace"))
        fail(NOT_BUILT, f"{name} cannot be built: {fault} (all of it: {log.relative_to(ROOT)})")
    made.chmod(0o755)
    made.rename(target)
    shutil.rmtree(room, ignore_errors=True)


def remove_old(name):
    """Removes all unproved builds of a program but the newest."""
    builds = [it for it in KEPT.glob(f"{name}-*") if re.fullmatch(rf"{name}-[0-9a-f]{{32}}", it.name)]
    for old in sorted(builds, key=lambda it: it.stat().st_mtime)[:-MOST]:
        old.unlink(missing_ok=True)


def build_once(kit, name, top=ROOT):
    """The path of an unproved program that was built from the sources of the repository at this folder, and the time
    before they were read. Two calls at once build it once."""
    KEPT.mkdir(parents=True, exist_ok=True)
    with open(KEPT / f"{name}.lock", "a") as lock:
        try:
            fcntl.flock(lock, fcntl.LOCK_EX | fcntl.LOCK_NB)
        except BlockingIOError:
            say(f"another call builds {name} now: waiting for it")
            fcntl.flock(lock, fcntl.LOCK_EX)
        for _ in range(3):
            now, changed = time.time(), last_change(name, top)
            total = unproved_sum(kit, name, top)
            target = KEPT / f"{name}-{total}"
            if target.is_file():
                return target, now
            say(f"building {name} without its proof, once: about a minute of processor time")
            build(kit, top / "crates" / name, target)
            if unproved_sum(kit, name, top) == total and last_change(name, top) == changed:
                remove_old(name)
                return target, now
            # A source changed meanwhile, so nobody knows which text was built.
            target.unlink()
    fail(NOT_BUILT, f"the sources of {name} change faster than they are built")


def below(folder):
    """The folder, and all that is in it at any depth, as paths from the top."""
    found = []
    for at, _, names in os.walk(folder):
        inside = os.path.relpath(at, ROOT)
        found += [inside, *(f"{inside}/{it}" for it in names)]
    return found


def watched(kit, rt, name, has_stamp):
    """Two lists of paths in which a change of the program would show: those of its code and statements, and with them
    those of the proofs. Where there is no stamp the code alone counts. A folder shows which names are in it."""
    crates = sorted(crates_below(name))
    found = ["crates", f"crates/{name}", "crates.txt", "tools/door/programs.py"]
    own = ["args", "status", "stdin"] + [f"out/{name}", f"out/{name}.stamp"] * has_stamp
    found += [f"crates/{name}/{it}" for it in own if (ROOT / "crates" / name / it).exists()]
    found += [str(it) for it in (rt, kit / "WHAT", kit / "KIT-ID") if os.path.exists(it)]
    for part in ("src", "specs") if has_stamp else ("src",):
        found += [it for crate in crates for it in below(ROOT / "crates" / crate / part)]
    proofs = [it for crate in crates for it in below(ROOT / "crates" / crate / "proofs")] if has_stamp else []
    return found, found + proofs


def write_apart(path, text, when=None):
    """Writes a file apart and then renames it, so that no reader meets half of it; with this time, if it is given."""
    part = path.with_name(f"{path.name}.{os.getpid()}")
    part.write_text(text)
    if when is not None:
        os.utime(part, (when, when))
    part.rename(path)


def record(lines, name, lists, before):
    """Writes the record of a program, and before it the lists of what it was made from. Its time is that of a moment
    before the sources were read; what a clock of whole ticks might not tell apart counts as changed."""
    KEPT.mkdir(parents=True, exist_ok=True)
    with open(KEPT / f"{name}.writing", "a") as lock:
        fcntl.flock(lock, fcntl.LOCK_EX)
        for ending, paths in zip(("code", "all"), lists):
            write_apart(KEPT / f"{name}.{ending}", "".join(f"{it}\0" for it in paths))
        write_apart(KEPT / f"{name}.record", "".join(f"{line}\n" for line in lines), before - 1)


def found_program(kit, name, may_build):
    """The program, whether it is proved, why not, whether it has a stamp, and the time before the sources were read."""
    before = time.time()
    stamp = ROOT / "crates" / name / "out" / f"{name}.stamp"
    has_stamp = stamp.is_file()
    if has_stamp and is_proved(kit, name, stamp.read_text(errors="replace")):
        return ROOT / "crates" / name / "out" / name, "proved", "", has_stamp, before
    why = "a source has changed since the proved build" if has_stamp else "no proved program is built here"
    kept = KEPT / f"{name}-{unproved_sum(kit, name)}"
    if not kept.is_file():
        if not may_build:
            sys.exit(1)
        kept, before = build_once(kit, name)
    return kept, "unproved", why, has_stamp, before


def note(kit, name, proved):
    """Leaves the stamp of a program that was proved from the sources of this sum; tells whether they are those here."""
    program = ROOT / "crates" / name / "out" / name
    if not proved or stamp_here(kit, name) != proved or not program.is_file():
        return False
    write_apart(program.with_name(f"{name}.stamp"), proved + hashlib.sha256(program.read_bytes()).hexdigest())
    return True


def main(words):
    if len(words) != (3 if words[:1] == ["note"] else 2) or words[0] not in ("find", "look", "sum", "note"):
        fail(2, "programs.py takes find, look, sum or note, and the name of a program; note takes a sum too")
    name = words[1]
    if words[0] == "sum":
        print(stamp_here(kit_of_path()[0], name) or "")
        return
    if words[0] == "note":
        if not note(kit_of_path()[0], name, words[2]):
            fail(1, f"{name} was not proved from the sources here")
        return
    signal.signal(signal.SIGTERM, lambda *_: sys.exit(143))
    kit, rt = kit_of_path()
    program, state, why, has_stamp, before = found_program(kit, name, words[0] == "find")
    lines = [str(program.relative_to(ROOT)), state, why]
    # Where nothing can be written, the program runs all the same, and the next call asks again.
    with contextlib.suppress(OSError):
        record([*lines, "yes" if has_stamp else "no", rt], name, watched(kit, rt, name, has_stamp), before)
    print("\n".join(lines))


if __name__ == "__main__":
    try:
        main(sys.argv[1:])
    except KeyboardInterrupt:
        fail(130, "interrupted")
    except OSError as error:
        fail(NOT_BUILT, f"{error.filename or 'the build'}: {error.strerror}")
