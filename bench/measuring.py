"""What the scripts of this folder share: their words, the sources that they make, and the processor time of a run."""
import argparse
import os
import resource
import sys

TOP = os.path.dirname(os.path.dirname(os.path.abspath(__file__)))
OUT = os.path.join(TOP, "bench", "out")
STACK = 8 * 1024 * 1024
LONGEST = 16_777_216


def read_words(description, times, first=()):
    """The words of the command line: `--only`, `--times`, those that are named first, and the built program."""
    reader = argparse.ArgumentParser(description=description)
    reader.add_argument("--only", default="", help="just the kinds whose name has this text")
    reader.add_argument("--without", default="", help="not the kind of this name")
    reader.add_argument("--times", type=int, default=times, help="so many runs each")
    for word in first:
        reader.add_argument(word)
    reader.add_argument("program", nargs="?", default=os.path.join(TOP, "crates/matchcheck/out/matchcheck"))
    words = reader.parse_args()
    words.program = os.path.abspath(words.program)
    if not os.access(words.program, os.X_OK):
        sys.exit(f"{words.program} is not built: cd crates/matchcheck && rt run")
    return words


def write(name, text):
    """Writes a source of this name, and gives its path."""
    if len(text) > LONGEST:
        sys.exit(f"{name} is longer than a source may be")
    os.makedirs(OUT, exist_ok=True)
    path = os.path.join(OUT, name)
    with open(path, "w") as file:
        file.write(text)
    return path


def source_name(kind, name, n):
    """The name of the source of a kind and a size."""
    return f"{kind}_" + "".join(c if c.isalnum() else "_" for c in name) + f"_{n}.rs"


def run(command, stack=STACK):
    """The processor time of a run with so many bytes of stack, its peak memory in MB, and its status. What it prints is lost."""
    pid = os.fork()
    if pid == 0:
        none = os.open(os.devnull, os.O_WRONLY)
        os.dup2(none, 1)
        os.dup2(none, 2)
        resource.setrlimit(resource.RLIMIT_STACK, (stack, stack))
        os.execvp(command[0], command)
    _, status, usage = os.wait4(pid, 0)
    return usage.ru_utime + usage.ru_stime, usage.ru_maxrss / 1024, os.waitstatus_to_exitcode(status)


SO_FAR = {}


def least_so_far(command, times):
    """The least processor time of all runs of the command so far, of which so many are made now. Where times are taken from one another, each is to be the
    least first: of differences the least would be one whose smaller time came out long."""
    key = " ".join(command)
    SO_FAR[key] = min(least(command, times)[0], SO_FAR.get(key, float("inf")))
    return SO_FAR[key]


def least(command, times, wanted=(0, 1)):
    """The least processor time of some runs, and the peak memory of the last. Each is to end with one of these statuses."""
    best = None
    for _ in range(times):
        spent, memory, status = run(command)
        if status not in wanted:
            sys.exit(f"{' '.join(command)} ended with status {status}")
        best = spent if best is None else min(best, spent)
    return best, memory
