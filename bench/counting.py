"""Counts instructions by valgrind's callgrind, of a program of this repository and of the engine in plain Rust, over families of matches. The counts are the same
from run to run, whatever else the machine does; times of short matches move by half.

Of the program what counts is doing its step with a match three times less doing it once, by two (both programs of `--build` take how often as their word);
of the engine what is counted within one of its functions, by how often that is called: as often as the function in which most of it is spent.
"""
import os
import re
import subprocess
import sys
import tempfile

from constructors import LONGEST_RATIO, STEEPEST, told
from measuring import write


def counted(command, *words):
    """What callgrind counts of a command of the shell."""
    done = subprocess.run(["sh", "-c", "exec valgrind --tool=callgrind %s %s" % (" ".join(words), command)], capture_output=True, text=True)
    return int(re.search(r"Collected : (\d+)", done.stderr)[1])


def ours(program, path):
    """The instructions of the program's step with the match."""
    often, once = (counted(f"{program} {k} < {path}", "--callgrind-out-file=/dev/null") for k in (3, 1))
    return (often - once) / 2


def others(engine, name, n, step, function):
    """Those of the engine's step, which is this function of it."""
    with tempfile.NamedTemporaryFile() as found:
        words = (f"--callgrind-out-file={found.name}", f"--toggle-collect='*{function}*'")
        total = counted(f"{engine} time {name}:{n} '' {step}", *words)
        tree = subprocess.run(["callgrind_annotate", "--inclusive=yes", "--tree=caller", found.name], capture_output=True, text=True).stdout
    # What takes most of it stands first, and is called once each time.
    calls = re.search(r"< \S*%s \(([\d,]+)x\)" % function, tree)[1]
    return total / int(calls.replace(",", ""))


def measured(program, engine, name, first, step, function):
    """Prints a family's counts at its sizes, and tells whether it met its goals."""
    fine, before = True, None
    for n in (first, 2 * first, 4 * first):
        path = write(f"family_{name}_{n}.matches", told(engine, name, n))
        own, other = ours(program, path), others(engine, name, n, step, function)
        growth, steepness = (own / before[0], other / before[1]) if before else (0.0, 0.0)
        print(f"{name:<24} {n:>6} {own / 1e6:10.3f} {other / 1e6:10.3f} {own / other:8.2f} {growth:8.2f} {steepness:8.2f}", flush=True)
        fine = fine and own <= LONGEST_RATIO * other and growth <= STEEPEST * steepness
        before = (own, other)
    return fine


def count_families(families, step, function, usage):
    """Counts the families that the command line names, and ends the program: with 1 where a family missed a goal."""
    words = sys.argv[1:]
    only = words[1] if words[:1] == ["--only"] and len(words) > 1 else ""
    words = words[2:] if only else words
    if len(words) != 2:
        sys.exit(usage)
    engine, program = (os.path.abspath(word) for word in words)
    chosen = [(name, first) for name, first in families if only in name]
    print(f"{'family':<24} {'N':>6} {'millions':>10} {'plain':>10} {'ratio':>8} {'growth':>8} {'plain':>8}")
    met = sum(measured(program, engine, name, first, step, function) for name, first in chosen)
    print(f"{met} of {len(chosen)} families met their goals")
    sys.exit(0 if met == len(chosen) else 1)
