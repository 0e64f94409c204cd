#!/usr/bin/env python3
"""Measures lowering alone, beside an engine in plain Rust, over the families of run.py, at N, 2N and 4N.

    bench/trees/alone.py [--only TEXT] [--without NAME] [--times N] ENGINE [PROGRAM]
    bench/trees/alone.py --build PROGRAM

ENGINE is the program that run.py takes. PROGRAM reads a match in the form of tests/engine/README.md and lowers it to its decision tree so
many times; `--build` makes it of the crates, the reader of tests/engine and program/ (files without their last `.txt`). What counts is the
processor time of lowering a match k + 1 times less that of lowering it once, by k. So neither program reads, elaborates or prints while the
clock runs, and times from 50 microseconds on are judged.

It is built without proof, but optimised and without the tests of `rt try` (bench/building.py). The columns and goals are those of run.py.
"""
import pathlib
import sys

HERE = pathlib.Path(__file__).resolve().parent
sys.path.insert(0, str(HERE.parent))
from building import time_families
from run import FAMILIES

if __name__ == "__main__":
    time_families("Measures lowering alone beside an engine in plain Rust.", FAMILIES, "l", "lower", ("decision_tree",), HERE / "program")
