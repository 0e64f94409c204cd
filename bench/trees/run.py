#!/usr/bin/env python3
"""Measures the decision trees of hard matches beside those of an engine in plain Rust, at N, 2N and 4N.

    bench/trees/run.py [--only TEXT] [--times N] ENGINE [PROGRAM]

ENGINE is a program that knows the families by name: `ENGINE family NAME N` prints a match by its constructors, in the form of
tests/engine/README.md, and `ENGINE time NAME:N "" l` the processor time of lowering it (`lower SECONDS`). PROGRAM is the built
program, by default crates/matchcheck/out/matchcheck. Each match is written as Rust (bench/out). What counts is the processor time of
`trees` less that of `check` on the same source: lowering, and the text of the tree. `ratio`, `growth` and the goals are those of bench/families. The exit
status is 1 where a family did not meet its goals.
"""
import os
import sys

sys.path.insert(0, os.path.dirname(os.path.dirname(os.path.abspath(__file__))))
from constructors import Reader, over_families, told
from measuring import least_so_far, write

# The families, with the least N.
FAMILIES = [
    ("enum", 2000), ("enum_open", 2000), ("ints", 2000), ("ranges", 2000), ("ranges_nested", 500), ("strings", 2000), ("or", 2000), ("or_enum", 2000),
    ("guards", 2000), ("guards_same", 2000), ("guards_mixed", 250), ("mixed", 200), ("pairs_grid", 2500), ("enum_pairs", 500), ("bools_diag", 64),
    ("bools_diag_wild", 32), ("struct", 32), ("struct_full", 60), ("options", 15), ("slices", 32), ("slices_lit", 32), ("slices_back", 32),
    ("hard_or", 6), ("hard_or_enum", 4), ("hard_diag2", 4), ("hard_pairs", 5), ("hard_pairs_split", 4), ("hard_full", 5), ("hard_halves", 5),
    ("hard_literals", 3), ("hard_triangle", 32), ("hard_nested_or", 5),
]


def ours(words, name, n):
    """The program's time for a family."""
    path = write(f"family_{name}_{n}.rs", Reader(told(words.engine, name, n)).source()[0])
    times = [least_so_far([words.program, command, path], words.times) for command in ("trees", "check")]
    return max(times[0] - times[1], 0.0)


if __name__ == "__main__":
    sys.exit(over_families("Measures decision trees beside those of an engine in plain Rust.", FAMILIES, ours, "l", "lower"))
