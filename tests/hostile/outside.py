"""Files that cannot be read or are none, output that cannot be written, and each call for it refused in turn."""
import os
import resource
import signal
import subprocess
import threading
import time

from limits import FINE, NO_FUNCTION, function
from refusing import Refusing
from running import READ_FAULT, REFUSED, WRITE_FAULT, refusal, report, run

SOURCE = "enum E{A,B,C} fn f(x:E){match x{E::A=>1,E::B=>2}}"
MISSING = {"text": "E::C", "tree": ["node", "E::C", []]}
WANTED = (1, report({"exhaustive": False, "name": "f", "overlaps": [], "unreachable": [], "witnesses": [MISSING]}))
TOO_LONG = (REFUSED, refusal(7, "too-long"))
NOTHING_READ = (READ_FAULT, b"")
NOBODY = 65_534
READS, WRITES = "files that cannot be read, or are none", "output that cannot be written"
CHECK = ["check", "f.rs"]


def try_all(tried, program, folder):
    os.chmod(folder, 0o755)
    with open(os.path.join(folder, "f.rs"), "w", encoding="utf-8") as file:
        file.write(SOURCE)
    try_files(tried, program, folder)
    try_pipes(tried, program, folder)
    try_outputs(tried, program, folder)
    try_room(tried, program, folder)
    refusing = Refusing(folder)
    if refusing.library is not None:
        try_calls(tried, program, folder, refusing)


def try_files(tried, program, folder):
    os.mkdir(os.path.join(folder, "folder"))
    os.symlink("round", os.path.join(folder, "round"))
    os.symlink("f.rs", os.path.join(folder, "link"))
    names = {
        "no file": "none.rs",
        "no name": "",
        "a folder": "folder",
        "the root": "/",
        "a path through a file": "f.rs/f.rs",
        "a name of 5000 letters": "a" * 5000,
        "a path of 100,000 letters": "a/" * 50_000,
        "a link to itself": "round",
        "a file whose read fails": "/proc/self/mem",
    }
    for name, path in names.items():
        tried.same(READS, name, run(program, ["check", path], folder), NOTHING_READ)
        tried.same(READS, name + ", `trees`", run(program, ["trees", path], folder), NOTHING_READ)
        tried.same(READS, name + ", `eval`", run(program, ["eval", path, "f", "1"], folder), NOTHING_READ)
    tried.same(READS, "a link", run(program, ["check", "link"], folder), WANTED)
    tried.same(READS, "an empty device", run(program, ["check", "/dev/null"], folder), NO_FUNCTION)
    tried.same(READS, "a device without an end", run(program, ["check", "/dev/zero"], folder), TOO_LONG)
    closed = os.path.join(folder, "closed.rs")
    with open(closed, "w", encoding="utf-8") as file:
        file.write(SOURCE)
    os.chmod(closed, 0)
    if os.geteuid() == 0:
        tried.same(READS, "a file of another", run(program, ["check", "closed.rs"], folder, user=NOBODY), NOTHING_READ)
    else:
        tried.same(READS, "a file that is closed to its owner", run(program, ["check", "closed.rs"], folder), NOTHING_READ)


def try_pipes(tried, program, folder):
    """A named pipe that another process fills at once, slowly or not at all."""
    path = os.path.join(folder, "pipe")
    os.mkfifo(path)
    pieces = {
        "a pipe": ([SOURCE.encode()], 0, WANTED),
        "a pipe, byte by byte": ([bytes([byte]) for byte in SOURCE.encode()], 0.002, WANTED),
        "a pipe that is closed at once": ([], 0, NO_FUNCTION),
        "a pipe without an end": ([b" " * 65_536] * 400, 0, TOO_LONG),
    }
    for name, (written, pause, wanted) in pieces.items():
        thread = threading.Thread(target=fill, args=(path, written, pause))
        thread.start()
        tried.same(READS, name, run(program, ["check", "pipe"], folder), wanted)
        thread.join()


def fill(path, pieces, pause):
    with open(path, "wb", buffering=0) as pipe:
        for piece in pieces:
            try:
                pipe.write(piece)
            except BrokenPipeError:
                return
            time.sleep(pause)


def try_outputs(tried, program, folder):
    def status_of(name, **how):
        """A run whose output is not seen."""
        ran = run(program, CHECK, folder, **how)
        tried.same(WRITES, name, (ran[0], b""), (WRITE_FAULT, b""))

    with open("/dev/full", "wb") as full:
        status_of("a full device", stdout=full)
    with open("/dev/null", "rb") as reader:
        status_of("a descriptor for reading", stdout=reader)
    status_of("closed output", stdout=None, preexec_fn=lambda: os.close(1))
    status_of("closed input and output", stdout=None, preexec_fn=lambda: (os.close(0), os.close(1)))
    reader, writer = os.pipe()
    os.close(reader)
    status_of("a pipe that nobody reads", stdout=writer)
    os.close(writer)
    reader, writer = os.pipe()
    os.set_blocking(writer, False)
    try:
        while True:
            os.write(writer, b" " * 4096)
    except BlockingIOError:
        pass
    status_of("a full pipe that does not wait", stdout=writer)
    os.close(reader)
    os.close(writer)
    for name, close in (("closed input", 0), ("closed standard error", 2)):
        ran = subprocess.run([program, *CHECK], cwd=folder, stdout=subprocess.PIPE, preexec_fn=lambda: os.close(close))
        tried.same(WRITES, name, (ran.returncode, ran.stdout), WANTED)
    ran = subprocess.run([program, "check", "none.rs"], cwd=folder, preexec_fn=lambda: os.close(1))
    tried.same(WRITES, "closed output and no file", (ran.returncode, b""), NOTHING_READ)
    reads_little(tried, program, folder)


def reads_little(tried, program, folder):
    """A long report to a reader that takes a few bytes and goes."""
    with open(os.path.join(folder, "long.rs"), "w", encoding="utf-8") as file:
        file.write("".join(f"fn f{i}(x:bool){{match x{{}}}}\n" for i in range(20_000)))
    whole = run(program, ["check", "long.rs"], folder)[1]
    process = subprocess.Popen([program, "check", "long.rs"], cwd=folder, stdout=subprocess.PIPE)
    begun = os.read(process.stdout.fileno(), 10)
    process.stdout.close()
    tried.same(WRITES, "a pipe whose reader goes", (process.wait(), begun), (WRITE_FAULT, whole[:10]))


def try_room(tried, program, folder):
    """A file that takes so many bytes and no more, for each number of bytes of the output."""
    status, whole = WANTED
    path = os.path.join(folder, "written")
    for room in range(len(whole) + 1):

        def hold():
            signal.signal(signal.SIGXFSZ, signal.SIG_IGN)
            resource.setrlimit(resource.RLIMIT_FSIZE, (room, room))

        with open(path, "wb") as out:
            got = run(program, CHECK, folder, stdout=out, preexec_fn=hold)[0]
        with open(path, "rb") as file:
            written = file.read()
        wanted = (status, whole) if room == len(whole) else (WRITE_FAULT, whole[:room])
        tried.same("a file that takes so many bytes, for each byte of the output", str(room), (got, written), wanted)


def is_begun(written, longest):
    """Whether what is written is a first part of the output, of at most so many bytes."""
    return len(written) <= longest and WANTED[1].startswith(written)


def try_calls(tried, program, folder, refusing):
    """One call alone is refused, its number counted up until a run meets none."""
    for kind, status in (("open", READ_FAULT), ("read", READ_FAULT), ("write", WRITE_FAULT)):
        for number, found, refused in refusing.in_turn(program, CHECK, folder, kind, False):
            wrong = None
            if not refused:
                wrong = None if found == WANTED else f"it ended with {found[0]}"
            elif found[0] != status or not is_begun(found[1], 0 if status == READ_FAULT else len(WANTED[1]) - 1):
                wrong = f"it ended with {found[0]} and wrote {found[1][:300]!r}"
            tried.add(f"each `{kind}` refused in turn", f"status {found[0]}", wrong, f"call {number}")
    for bytes_at_most in (1, 2, 3, 7, 16):
        found, _ = refusing.run(program, CHECK, folder, "short", bytes_at_most, bytes_at_most)
        tried.same("reads and writes of a few bytes", f"{bytes_at_most} bytes", found, WANTED)
