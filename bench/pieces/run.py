#!/usr/bin/env python3
"""Times `present` on columns of n, 2n and 4n heads of each kind, beside the same in plain Rust.

    bench/pieces/run.py [RUNS] [--only WORD] [--least N] [--plain RUNS] [--program PROGRAM]

Writes a copy of the crates and the program of program/ (its files without their last `.txt`) into a temporary folder, proves and
builds it with `rt run`, and plain.rs with `rustc -O`. Then both run in turn, RUNS times in all (5 if no number is given). For each
column it prints the least processor time of `present`, half of how much longer twice as many heads take, and the time beside
that of plain Rust; that the two tell the same of each column is checked. `--only WORD` takes the kinds whose name has the word, and
`--least N` another n than 1,000,000. `--plain RUNS` lets plain Rust run less often. PROGRAM is the proved program, where an earlier run
with the same words has built it.
"""
import argparse
import os
import pathlib
import re
import shutil
import subprocess
import tempfile

HERE = pathlib.Path(__file__).resolve().parent
ROOT = HERE.parent.parent
CRATES = ("no_memory", "match_model", "range_split", "slice_split", "pat_context", "constructor_sets")
KINDS = (
    "flags", "random bytes", "random numbers", "equal numbers", "nested numbers", "touching numbers", "numbers in reverse",
    "greatest numbers of u128", "least and greatest of i128", "numbers free above", "numbers free on a side",
    "characters over the hole", "random texts", "equal texts", "texts in reverse", "texts, prefixes of each other",
    "variants", "three of n variants (20,000 calls)", "equal variants", "variants in reverse", "equal lengths",
    "nested rests", "lengths in reverse", "arrays of no item", "arrays of 4,294,967,295 by ends", "arrays of 4,294,967,295",
)
GROWTH = 1.2
RATIO = 1.5
LEAST = 1_000_000
# Memory that is given back stays with the process, so that the time of a column has none of the system's for new pages; and pages are large,
# so that a column of 100 MB has none of the processor's for finding them.
MEMORY = {"GLIBC_TUNABLES": "glibc.malloc.mmap_max=0:glibc.malloc.trim_threshold=%d:glibc.malloc.hugetlb=1" % 2**40}
# The line of both programs that goes over the kinds, and the calls of the proved one that tell how many heads.
LOOP = re.compile(r"for kind in 0\.\.\w+ \{")
CALLS = re.compile(r"(kind, )(250_000|500_000|1_000_000)(\)\?;)")


def narrow(source, target, kinds):
    """Copies a program's file, which is to go over the kinds from the first to the last of these alone."""
    text, count = LOOP.subn("for kind in %d..%d {" % (kinds[0], kinds[-1] + 1), source.read_text())
    if count != 1:
        raise SystemExit("%s does not go over the kinds in one place" % source)
    target.write_text(text)


def build(folder, kinds=range(len(KINDS)), heads=LEAST):
    """A copy of the crates with the program."""
    for crate in CRATES:
        shutil.copytree(ROOT / "crates" / crate, folder / "crates" / crate, ignore=shutil.ignore_patterns("must-fail", "out"))
    lines = (ROOT / "crates.txt").read_text().splitlines()
    needed = [line for line in lines if line.split(":")[0] in CRATES]
    uses = "pieces_bench: no_memory match_model range_split slice_split pat_context constructor_sets"
    (folder / "crates.txt").write_text("\n".join(needed + [uses]) + "\n")
    program = folder / "crates" / "pieces_bench"
    for source in (HERE / "program").rglob("*.txt"):
        target = program / source.relative_to(HERE / "program").with_suffix("")
        target.parent.mkdir(parents=True, exist_ok=True)
        shutil.copy(source, target)
    narrow(HERE / "program" / "src" / "main.rt.txt", program / "src" / "main.rt", kinds)
    narrow(HERE / "plain.rs", folder / "plain.rs", kinds)
    main = program / "src" / "main.rt"
    main.write_text(CALLS.sub(lambda it: it[1] + str(int(it[2]) // 250_000 * heads) + it[3], main.read_text()))
    return program


def proved_program(folder):
    """The program, proved and built if it is not yet."""
    program = folder / "out" / "pieces_bench"
    if not program.exists():
        done = subprocess.run(["rt", "run"], cwd=folder, capture_output=True, text=True)
        if done.returncode:
            raise SystemExit(done.stdout + done.stderr)
    return program


def told(words):
    """What was told of each column, and its time, by kind and count: what was told last, where a line comes again."""
    lines = [line.split() for line in words.splitlines()]
    return {(int(line[0]), int(line[1])): (line[2:-1], int(line[-1])) for line in lines}


def printed(command):
    """What a program prints."""
    return subprocess.run(command, capture_output=True, text=True, check=True, env=os.environ | MEMORY).stdout


def least(runs):
    """Of each column what was told, which must be the same in each run, and the least time."""
    found = {}
    for run in runs:
        for key, (what, took) in run.items():
            if key in found and found[key][0] != what:
                raise SystemExit("two runs differ: %s: %s, %s" % (key, found[key][0], what))
            found[key] = (what, min(took, found[key][1]) if key in found else took)
    return found


def main():
    words = argparse.ArgumentParser(description="Times the pieces of columns, beside the same in plain Rust.")
    words.add_argument("runs", nargs="?", type=int, default=5)
    words.add_argument("--only", default="", metavar="WORD")
    words.add_argument("--least", type=int, default=LEAST, metavar="N")
    words.add_argument("--plain", type=int, metavar="RUNS")
    words.add_argument("--program", type=pathlib.Path, metavar="PROGRAM")
    words = words.parse_args()
    count = words.runs
    kinds = [number for number, name in enumerate(KINDS) if words.only in name]
    if not kinds:
        raise SystemExit("no kind has the word %s" % words.only)
    proved, plain = [], []
    with tempfile.TemporaryDirectory() as name:
        folder = pathlib.Path(name)
        program = build(folder, kinds, words.least)
        subprocess.run(["rustc", "-O", "--edition", "2024", "-o", str(folder / "plain"), str(folder / "plain.rs")], check=True)
        for run in range(count):
            if run < (words.plain or count):
                plain.append(told(printed([str(folder / "plain"), str(words.least)])))
            proved.append(told(printed([str(words.program or proved_program(program))])))
    proved, plain = least(proved), least(plain)
    print("| heads | count | pieces | ms | half of the growth | plain Rust, ms | half of the growth | ratio |")
    print("|---|---|---|---|---|---|---|---|")
    missed = []
    before = {}
    for (kind, heads), (what, took) in sorted(proved.items()):
        if kind not in kinds:
            continue
        if plain[(kind, heads)][0] != what:
            raise SystemExit("plain Rust differs: %s %d: %s, %s" % (KINDS[kind], heads, plain[(kind, heads)][0], what))
        beside = plain[(kind, heads)][1]
        ratio = took / max(beside, 1)
        grown = [new / max(old, 1) / 2 for new, old in zip((took, beside), before[kind])] if kind in before else []
        shown = ["%.2f" % it for it in grown] or ["", ""]
        print("| %s | %d | %s | %.2f | %s | %.2f | %s | %.2f |" % (KINDS[kind], heads, what[0], took / 1000, shown[0], beside / 1000, shown[1], ratio))
        if ratio > RATIO or grown and grown[0] > GROWTH:
            missed.append("%s %d" % (KINDS[kind], heads))
        before[kind] = (took, beside)
    print("\n%d of %d columns miss a goal: %s" % (len(missed), 3 * len(kinds), ", ".join(missed)))


if __name__ == "__main__":
    main()
