#!/usr/bin/env python3
"""Measures how the time of the program grows with patterns that are large in one way each, fine ones and ones that break a rule.

    bench/patterns/run.py [--only TEXT] [--times N] [PROGRAM]

PROGRAM is the built program, by default crates/matchcheck/out/matchcheck. The sources, of N, 2N and 4N parts each, are made in
bench/out. The least processor time of some runs counts, less that of an empty file. `growth` is the time on a source by that on the
one of half the size, by 2: it is to be at most 1.2 at the last step. A source whose name ends in `refused` breaks a rule at its very
end and is read up to there, but not judged; so is the one with other types. The last line says how many goals were met; the exit
status is 1 where one was missed.
"""
import itertools
import os
import sys

sys.path.insert(0, os.path.dirname(os.path.dirname(os.path.abspath(__file__))))
from measuring import least, read_words, source_name, write

SHORTEST = 0.01
GROWTH = 1.2
WIDE = "struct S { " + ", ".join(f"a{j}: u8" for j in range(256)) + " }\n"
TYPES = "u8 u16 u32 u64 u128 usize i8 i16 i32 i64 i128 isize bool char".split()


def function(parameter, arms, before=""):
    return before + f"fn f(x: {parameter}) {{ match x {{\n" + "".join(f"{arm} => 0,\n" for arm in arms) + "} }\n"


def wide(n):
    """Brace patterns of 256 fields."""
    fields = [f"a{j}: _" for j in range(255)]
    return function("S", ["S { " + ", ".join(fields + [f"a255: {i % 256}"]) + " }" for i in range(n)], WIDE)


def arms(n):
    return function("u32", [str(i) for i in range(n)])


def alternatives(n):
    return function("u32", ["|".join(str(i) for i in range(n))])


def binding_alternatives(n):
    """Alternatives with few literals, so that judging them takes no longer than checking them."""
    return function("(u32, u32)", ["|".join("(a,0)" if i % 2 else "(0,a)" for i in range(n))])


def other_types(n):
    """Alternatives that bind a name, each at a type of its own."""
    types = itertools.islice(itertools.product(TYPES, repeat=5), n)
    variants = ",".join(f"A{i}(({','.join(parts)}))" for i, parts in enumerate(types))
    return function("E", ["|".join(f"E::A{i}(x)" for i in range(n))], f"enum E {{{variants}}}\n")


def many_names(n):
    """Alternatives that bind 16 names each, in turn from the front and from the back."""
    names = [f"n{j}" for j in range(16)]
    forward, backward = "(" + ",".join(names) + ")", "(" + ",".join(reversed(names)) + ")"
    return function("(" + "u8," * 16 + ")", ["|".join(backward if i % 2 else forward for i in range(n))])


def deep(n):
    """Tuples 60 deep around a literal."""
    return function("(" * 60 + "u32" + ",)" * 60, ["(" * 60 + str(i) + ",)" * 60 for i in range(n)])


def nested_alternatives(n):
    """Alternatives in alternatives, 20 deep."""
    pattern = "a"
    for level in range(20):
        pattern = f"({pattern}|{pattern if level < 8 else 'a'})"
    return function("u32", [pattern] * n)


def refused(make):
    """The same with an arm at the end that breaks a rule."""

    def source(n):
        text = make(n)
        end = text.rindex("} }")
        return text[:end] + "'\"' | \"\" => 0,\n" + text[end:]

    return source


# What the source is, how it is made, and the least N.
KINDS = [
    ("brace patterns of 256 fields", wide, 1000),
    ("arms", arms, 100_000),
    ("alternatives of one arm", alternatives, 250_000),
    ("alternatives that bind a name", binding_alternatives, 100_000),
    ("alternatives that bind 16 names", many_names, 20_000),
    ("tuples 60 deep", deep, 10_000),
    ("alternatives in alternatives", nested_alternatives, 500),
]


def main():
    words = read_words("Measures how time grows with large patterns.", 3)
    start, _ = least([words.program, "check", write("patterns_empty.rs", "")], words.times, (0,))
    kinds = KINDS + [(f"{name}, refused", refused(make), n) for name, make, n in KINDS]
    kinds.append(("alternatives that bind a name with other types", other_types, 75_000))
    print(f"{'kind':<46} {'N':>8} {'seconds':>8} {'MB':>6} {'growth':>7}")
    met = tried = 0
    for name, make, first in kinds:
        if words.only not in name:
            continue
        tried += 1
        before, growth = None, None
        for n in (first, 2 * first, 4 * first):
            path = write(source_name("patterns", name, n), make(n))
            spent, memory = least([words.program, "check", path], words.times)
            spent = max(spent - start, SHORTEST)
            growth = spent / before / 2 if before else None
            before = spent
            shown = f"{growth:7.2f}" if growth else f"{'':>7}"
            print(f"{name:<46} {n:>8} {spent:8.2f} {memory:6.0f} {shown}", flush=True)
        met += growth <= GROWTH
    print(f"{met} of {tried} goals met")
    sys.exit(0 if met == tried else 1)


main()
