#!/usr/bin/env python3
"""Measures the program beside rustc on matches of one kind each, of N, 2N and 4N.

    bench/matches/run.py [--only TEXT] [--times N] [PROGRAM]

PROGRAM is the built program, by default crates/matchcheck/out/matchcheck. The sources are made in bench/out. Each is checked by the
program and by rustc (`--emit=metadata`, warnings off: parsing, types, its check of matches and of borrows, no code), and the least
processor time of some runs counts, of the program twelve times as many since they are short, less that of an empty file. `ratio` is rustc's time by the program's, `growth` the program's time
on a source by that on the one of half the size, by 2. A kind meets its goals where every ratio is at least 2 and, where its work
need not grow faster than the list of arms, the last growth is at most 1.2. Times below a millisecond are too short to be judged,
and count as a millisecond. The last line says how many kinds met their goals; the exit status is 1 where one did not.
"""
import os
import shutil
import sys

sys.path.insert(0, os.path.dirname(os.path.dirname(os.path.abspath(__file__))))
from measuring import OUT, least, read_words, source_name, write

SHORTEST = 0.001
RATIO = 2.0
GROWTH = 1.2


def function(parameter, arms, before=""):
    """One function over these arms, behind its declarations."""
    body = "".join(f"        {arm} => {{}}\n" for arm in arms)
    return f"{before}pub fn f(x: {parameter}) {{\n    match x {{\n{body}    }}\n}}\n"


def an_enum(name, count):
    return f"pub enum {name} {{ " + ", ".join(f"V{i}" for i in range(count)) + " }\n"


def variants(n):
    return function("E", [f"E::V{i}" for i in range(n)], an_enum("E", n))


def literals(n):
    return function("u32", [str(7 * i) for i in range(n)] + ["_"])


def strings(n):
    return function("&str", [f'"word {i}"' for i in range(n)] + ["_"])


def ranges(n):
    return function("u32", [f"{10 * i}..={10 * i + 9}" for i in range(n)] + ["_"])


def touch(i):
    """A range whose last number is the first of the next one."""
    return f"{10 * i}..={10 * i + 10}"


def touching(n):
    return function("u32", [touch(i) for i in range(n)] + ["_"])


def touching_alternatives(n):
    return function("u32", [" | ".join(touch(i) for i in range(n)), "_"])


def touching_columns(n):
    """Each arm touches the next one in eight columns."""
    return function("(" + "u32, " * 8 + ")", ["(" + (touch(i) + ", ") * 8 + ")" for i in range(n)] + ["_"])


def touching_in_variants(n):
    """Two ranges that touch in each variant. All end or begin at one number, and those of two variants never meet."""
    arms = [f"E::V{i}({touch(half)})" for i in range(n) for half in (0, 1)]
    return function("E", arms + ["_"], "pub enum E { " + ", ".join(f"V{i}(u32)" for i in range(n)) + " }\n")


def touching_beside_others(n):
    """The same with rows of two columns, of which the first keeps them apart."""
    arms = [f"({20 * i}..={20 * i + 19}, {touch(half)})" for i in range(n) for half in (0, 1)]
    return function("(u32, u32)", arms + ["_"])


def touching_rows(n):
    """Items from the front and from the back that are one in rows of one item."""
    arms = [f"[{touch(i)}, ..]" if i % 2 == 0 else f"[.., {touch(i)}]" for i in range(n)]
    return function("&[u32]", arms + ["_"])


def deep_tuples(n):
    """60 tuples in one another with ranges in each. At each place there are N of them, and none touch."""
    parameter = "u32"
    for _ in range(60):
        parameter = "(" + "u32, " * 16 + f"{parameter})"
    arms = []
    for i in range(n):
        pattern = part = f"{3 * i}..={3 * i + 1}"
        for _ in range(60):
            pattern = "(" + f"{part}, " * 16 + f"{pattern})"
        arms.append(pattern)
    return function(parameter, arms + ["_"])


def touching_behind_references(n):
    """Ranges beside a flag behind references, in alternatives."""
    arms = [f"(({touch(2 * i)} | {touch(2 * i + 1)}), {'true' if i % 2 else '_'})" for i in range(n)]
    return function("&(&u32, &bool)", arms + ["_"])


def alternatives(n):
    return function("u32", [" | ".join(str(3 * i) for i in range(n)), "_"])


def guarded(n):
    return function("u32", [f"{i} if x > {i}" for i in range(n)] + ["_"])


def diagonal(n):
    arms = ["(" + ", ".join("true" if i == j else "_" for j in range(n)) + ")" for i in range(n)]
    return function("(" + "bool, " * n + ")", arms + ["_"])


def pairs(n, last):
    arms = [f"(E::V{i}, F::V{i})" for i in range(n)] + [f"(E::V{i}, _)" for i in range(n)]
    return function("(E, F)", arms + last, an_enum("E", n) + an_enum("F", n))


def forty_fields(n):
    declared = "pub struct S { " + ", ".join(f"pub a{j}: u8" for j in range(40)) + " }\n"
    arms = ["S { " + ", ".join(f"a{j}: {(i * (j + 3)) % 251}" for j in range(40)) + " }" for i in range(n)]
    return function("S", arms + ["_"], declared)


def nested(n):
    """Enums in one another, 30 deep, with a literal at the bottom."""
    declared = "".join(f"pub enum D{d} {{ A(D{d + 1}), B(u32) }}\n" for d in range(30)) + "pub struct D30(pub u32);\n"
    arms = []
    for i in range(n):
        depth = i % 31
        pattern = f"D30({i})" if depth == 30 else f"D{depth}::B({i})"
        for d in reversed(range(depth)):
            pattern = f"D{d}::A({pattern})"
        arms.append(pattern)
    return function("D0", arms + ["_"], declared)


def slices(n):
    arms = ["[" + "true, " * i + "]" for i in range(n)]
    return function("&[bool]", arms + ["_"])


def functions(n):
    parts = []
    for i in range(n):
        parts.append(f"pub fn b{i}(x: bool) {{ match x {{ true => {{}} _ => {{}} }} }}\n")
        parts.append(f"pub enum E{i} {{ A, B, C }}\n")
        parts.append(f"pub fn e{i}(x: E{i}) {{ match x {{ E{i}::A => {{}} E{i}::C => {{}} E{i}::B => {{}} }} }}\n")
    return "".join(parts)


# What the source is, how it is made, the least N, and whether its growth has a goal.
KINDS = [
    ("one variant an arm", variants, 2000, True),
    ("integer literals", literals, 2000, True),
    ("strings", strings, 2000, True),
    ("ranges in a row", ranges, 2000, True),
    ("ranges that touch", touching, 5000, True),
    ("touching alternatives", touching_alternatives, 5000, True),
    ("touching in eight columns", touching_columns, 250, True),
    ("touching in N variants", touching_in_variants, 500, True),
    ("touching beside others", touching_beside_others, 500, True),
    ("touching rows", touching_rows, 64, False),
    ("touching behind references", touching_behind_references, 1000, True),
    ("deep tuples of ranges", deep_tuples, 16, True),
    ("alternatives in one arm", alternatives, 2000, True),
    ("each arm guarded", guarded, 2000, True),
    ("flags on the diagonal", diagonal, 64, False),
    ("pairs of enums", lambda n: pairs(n, []), 500, True),
    ("pairs of enums and `_`", lambda n: pairs(n, ["_"]), 500, True),
    ("a struct of 40 fields", forty_fields, 200, False),
    ("enums 30 deep", nested, 500, False),
    ("slices by length", slices, 64, False),
    ("many functions", functions, 15_000, True),
]


def main():
    words = read_words("Measures the program beside rustc on matches of one kind each.", 3)
    if shutil.which("rustc") is None:
        sys.exit("rustc is not there to be compared with")

    def ours(path):
        return least([words.program, "check", path], 12 * words.times)[0]

    def theirs(path):
        out = os.path.join(OUT, "matches.rmeta")
        edition = ["--edition", "2024", "--crate-type", "lib", "--emit=metadata", "-A", "warnings", "-o", out]
        return least(["rustc", *edition, path], words.times)[0]

    empty = write("matches_empty.rs", "")
    our_start, their_start = ours(empty), theirs(empty)
    print(f"an empty file: {1000 * our_start:.1f} ms, rustc {1000 * their_start:.1f} ms")
    print(f"{'kind':<26} {'N':>7} {'ms':>9} {'rustc ms':>9} {'ratio':>7} {'growth':>7}")
    met = tried = 0
    for name, make, first, grows in KINDS:
        if words.only not in name:
            continue
        tried += 1
        fine, before, growth = True, None, None
        for n in (first, 2 * first, 4 * first):
            path = write(source_name("matches", name, n), make(n))
            our_time = max(ours(path) - our_start, SHORTEST)
            their_time = max(theirs(path) - their_start, SHORTEST)
            ratio = their_time / our_time
            growth = our_time / before / 2 if before else None
            before = our_time
            fine = fine and ratio >= RATIO
            shown = f"{growth:7.2f}" if growth else f"{'':>7}"
            print(f"{name:<26} {n:>7} {1000 * our_time:9.1f} {1000 * their_time:9.1f} {ratio:7.1f} {shown}", flush=True)
        met += fine and not (grows and growth > GROWTH and before > 10 * SHORTEST)
    print(f"{met} of {tried} kinds met their goals")
    sys.exit(0 if met == tried else 1)


main()
