#!/usr/bin/env python3
"""Measures the judging of hard matches beside an engine in plain Rust, at N, 2N and 4N.

    bench/families/run.py [--only TEXT] [--times N] ENGINE [PROGRAM]

ENGINE is a program that knows the families by name: `ENGINE family NAME N` prints a match by its constructors, in the form of
tests/engine/README.md, and `ENGINE time NAME:N "" j` the processor time of judging it (`judge SECONDS`). PROGRAM is the built
program, by default crates/matchcheck/out/matchcheck. Each match is written as Rust (bench/out) and checked. What counts is the
processor time of the check less that of the same source whose last arm breaks a rule, so that reading and the rules on patterns
count no more: what is left is elaboration, judging, and the text of the verdict. `ratio` is this by the engine's time, `growth`
a time by that at half the size. A family meets its goals where the ratio is at most 2 at every size, and its growth at most 1.5 times that of
the engine, or both times are too short to be told from the start of a program. The last line says how many families met their goals; the exit status is 1
where one did not.
"""
import os
import sys

sys.path.insert(0, os.path.dirname(os.path.dirname(os.path.abspath(__file__))))
from constructors import Reader, over_families, told
from measuring import least_so_far, write

# The families, with the least N.
FAMILIES = [
    ("enum", 2000), ("enum_missing_one", 2000), ("enum_open", 2000), ("ints", 2000), ("ints_open", 2000), ("ranges", 2000),
    ("ranges_nested", 1000), ("ranges_nested_guards", 1000), ("ranges_sliding", 1000), ("ranges_sliding_guards", 1000), ("strings", 2000),
    ("or", 2000), ("or_enum", 2000), ("guards", 2000), ("guards_same", 2000), ("guards_mixed", 1000), ("cross", 200), ("mixed", 200),
    ("pairs_grid", 2500), ("enum_pairs", 500), ("bools_diag", 32), ("bools_diag_wild", 32), ("struct", 32), ("struct_full", 60), ("options", 15),
    ("slices", 32), ("slices_lit", 32), ("slices_back", 32), ("hard_or", 4), ("hard_or_dead", 3), ("hard_or_arms", 3), ("hard_or_enum", 4),
    ("hard_diag2", 4), ("hard_pairs", 5), ("hard_pairs_split", 4), ("hard_pairs_dead", 4), ("hard_full", 5), ("hard_halves", 5), ("hard_sat", 5),
    ("hard_sat_open", 4), ("hard_literals", 10), ("hard_literals_dead", 5), ("hard_triangle", 32), ("hard_ranges", 50), ("hard_ranges_dead", 50),
    ("hard_ranges3", 10), ("hard_nested_or", 7),
]


def ours(words, name, n):
    """The program's time for a family."""
    whole, broken = Reader(told(words.engine, name, n)).source()
    judged, refused = write(f"family_{name}_{n}.rs", whole), write(f"family_{name}_{n}_broken.rs", broken)
    times = [least_so_far([words.program, "check", path], words.times) for path in (judged, refused)]
    return max(times[0] - times[1], 0.0)


if __name__ == "__main__":
    sys.exit(over_families("Measures the judging of hard matches beside an engine in plain Rust.", FAMILIES, ours, "j", "judge"))
