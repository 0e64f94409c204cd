#!/usr/bin/env python3
"""Counts the instructions of judging alone, beside an engine in plain Rust, over the families of run.py, at N, 2N and 4N.

    bench/families/instructions.py [--only TEXT] ENGINE PROGRAM

ENGINE and PROGRAM are those of alone.py. bench/counting.py says what is counted; it wants valgrind. The columns, in millions of instructions, and
the goals are those of run.py.
"""
import pathlib
import sys

HERE = pathlib.Path(__file__).resolve().parent
sys.path.insert(0, str(HERE.parent))
from counting import count_families
from run import FAMILIES

if __name__ == "__main__":
    count_families(FAMILIES, "j", "judge::judge", __doc__)
