#!/usr/bin/env python3
"""Measures the program beside rustc on families of matches on which a match checker may take long.

    bench/hard/run.py [--only TEXT] [--times N] [--limit SECONDS] [--ten] [--query] [--program PATH]

Each family has three sizes. `check`, `trees` and rustc run by turns on each, N times (3). The least processor time
of each counts. A run may take SECONDS (10) of processor time, and 2 GB. rustc does its front end with the lints for
unreachable patterns and for ranges that overlap, and may take 6 GB. A run of two seconds is not repeated, and what a
limit ended is not tried at greater sizes.
With `--query` the table has the time of rustc's query `check_match` too. With `--ten` each family is run once at ten
times its greatest size, without rustc. The sources are made in a folder that goes at the end.

The goals are those of README.md. The last lines name those that were missed, and say how many were met.
"""
import argparse
import os
import re
import sys
import tempfile

sys.path.insert(0, os.path.dirname(os.path.dirname(os.path.abspath(__file__))))
import shapes  # noqa: F401 (puts its families, and those of families.py, into the list)
import touching  # noqa: F401 (puts its families into the list)
import goals
from limits import GUARD, MEGABYTE, Limits, least, limited, rustc
from measuring import LONGEST, TOP
from query import check_match
from writing import FAMILIES

MEMORY = 2 << 30
LONG = 2.0
NODE = re.compile(rb'\["(?:switch|ask|take|miss|void)"')
PLACE = re.compile(rb'"\$|\],[0-9]+\]')
OVERLAP = 32


def read_words():
    """The words of the command line."""
    reader = argparse.ArgumentParser(description="Measures the program beside rustc on hard families of matches.")
    reader.add_argument("--only", default="", help="the families whose name has this text")
    reader.add_argument("--times", type=int, default=3, help="so many runs of each program")
    reader.add_argument("--limit", type=int, default=10, help="seconds that a run may take")
    reader.add_argument("--ten", action="store_true", help="ten times the greatest size, without rustc")
    reader.add_argument("--query", action="store_true", help="the time of rustc's query too")
    reader.add_argument("--program", default=os.path.join(TOP, "crates/matchcheck/out/matchcheck"))
    words = reader.parse_args()
    words.program = os.path.abspath(words.program)
    if not os.access(words.program, os.X_OK):
        sys.exit(f"{words.program} is not built: cd crates/matchcheck && rt run")
    return words


def counted(path, form):
    """How often a form of a few bytes stands in a file."""
    number, before = 0, b""
    with open(path, "rb") as file:
        while block := file.read(MEGABYTE):
            text = before + block
            number += sum(match.end() > len(before) for match in form.finditer(text))
            before = text[-OVERLAP:]
    return number


class Bench:
    """The runs of the programs on the sources of the families."""

    def __init__(self, words, folder):
        self.words, self.folder = words, folder
        self.source, self.guarded = (os.path.join(folder, name) for name in ("source.rs", "guarded.rs"))

    def write(self, family, size):
        """Writes the source of a family, and for rustc the same with the function of the guards; its bytes."""
        text = family.make(size)
        for path, more in ((self.source, ""), (self.guarded, GUARD)):
            with open(path, "w", encoding="utf-8") as file:
                file.write(text + more)
        return os.path.getsize(self.source)

    def ours(self, command, *more):
        """A run of the program on the source."""
        limits = Limits(self.words.limit, MEMORY, MEGABYTE)
        wrote = os.path.join(self.folder, command)
        return limited([self.words.program, command, self.source, *more], limits, wrote)

    def command(self, name, family, size):
        """A run of `check`, `trees`, `eval` or rustc."""
        if name == "rustc":
            return rustc(self.guarded, self.words.limit, self.folder)
        if name == "eval":
            return self.ours("eval", "f", *family.value(size))
        return self.ours(name)

    def turns(self, names, family, size, known):
        """The least time of each command whose run is not known yet, run by turns. One that takes long is run once."""
        runs = {name: [known[name]] if name in known else [] for name in names}
        for _ in range(self.words.times):
            for name in names:
                if not any(run.seconds > LONG or name in known for run in runs[name]):
                    runs[name].append(self.command(name, family, size))
        return {name: least(runs[name]) for name in names}


def measured(bench, family, size, known):
    """What is known of a family at a size, where some runs are known already."""
    size_of_source = bench.write(family, size)
    if size_of_source > LONGEST:
        sys.exit(f"{family.name}: {size} is more than a source may have")
    names = ["check", "trees", "rustc"] if family.value is None else ["eval", "check", "rustc"]
    if bench.words.ten:
        names.remove("rustc")
    runs = bench.turns(names, family, size, known)
    point = goals.Point(size, size_of_source, runs)
    point.written = os.path.getsize(runs["check"].wrote)
    if "trees" in runs and runs["trees"].answered():
        point.nodes, point.places = (counted(runs["trees"].wrote, form) for form in (NODE, PLACE))
    if bench.words.query and not bench.words.ten and runs["rustc"].answered():
        point.query = check_match(bench.guarded, bench.words.limit, bench.folder)
    return point


def start(bench):
    """The times of a source of one function, which are those of starting the programs."""
    for path in (bench.source, bench.guarded):
        with open(path, "w", encoding="utf-8") as file:
            file.write("pub fn f(x: bool) { match x { _ => {} } }\n")
    return {name: least([bench.command(name, None, 0) for _ in range(5)]).seconds for name in ("check", "rustc")}


def over_sizes(bench, family):
    """The points of a family. What a limit ended at one size is not run at greater ones."""
    points, known = [], {}
    for size in (family.ten,) if bench.words.ten else family.sizes:
        points.append(measured(bench, family, size, known))
        print(points[-1].line(family, points[-2] if points[1:] else None, bench.words.query), flush=True)
        known = {name: run for name, run in points[-1].runs.items() if not run.answered()}
    return points


def main():
    """Measures the families, and ends with status 1 where a goal was missed."""
    words = read_words()
    met, missed = 0, []
    with tempfile.TemporaryDirectory() as folder:
        bench = Bench(words, folder)
        starts = start(bench)
        print(f"A source of one function: check {starts['check']:.4f} s, rustc {starts['rustc']:.3f} s\n")
        print(goals.heading(words.query))
        for family in FAMILIES.values():
            if words.only not in family.name:
                continue
            points = over_sizes(bench, family)
            for goal, holds in goals.of_ten(family, points) if words.ten else goals.of(family, points, starts):
                met += holds
                missed += [] if holds else [f"MISSED: {family.name}: {goal}"]
    print("\n" + "".join(line + "\n" for line in missed) + f"{met} goals met, {len(missed)} missed")
    return 1 if missed else 0


if __name__ == "__main__":
    sys.exit(main())
