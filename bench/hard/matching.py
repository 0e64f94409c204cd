#!/usr/bin/env python3
"""Measures `check` beside rustc on random small matches.

    bench/hard/matching.py [--count N] [--first SEED] [--limit SECONDS] [--show SEED] [--program PATH]

Each of N matches (500) is made from its seed, from SEED (1) on: 3 to 12 columns of flags, enums, ranges, texts,
options, slices, tuples and references, and 10 to 80 rows with or-patterns and guards. Every second one has no
wildcard at its end. `check` has SECONDS (5) of processor time and 2 GB, rustc as many seconds and 6 GB. No source is
kept; `--show` prints one.

The goal is met for each match on which `check` is no slower than rustc, or rustc does not answer. The table has the
matches that missed it. The exit status is 1 if there is one.
"""
import argparse
import os
import random
import sys
import tempfile

sys.path.insert(0, os.path.dirname(os.path.dirname(os.path.abspath(__file__))))
from goals import told
from limits import GUARD, MEGABYTE, Limits, limited, rustc
from measuring import TOP
from writing import either, function, span, tuple_of

MEMORY = 2 << 30
SHAPES = ("flag", "enum", "number", "text", "option", "slice", "tuple", "reference", "variant")
DEEPEST = 3
WORDS = ("a", "b", "ab", "abc", "left", "right")


class Shape:
    """A random type: its kind, and the types of its parts."""

    def __init__(self, chance, depth, enums):
        self.kind = chance.choice(SHAPES if depth < DEEPEST else SHAPES[:4])
        counts = {"option": 1, "slice": 1, "reference": 1, "tuple": chance.randrange(2, 4), "variant": 2}
        self.parts = [Shape(chance, depth + 1, enums) for _ in range(counts.get(self.kind, 0))]
        self.name, self.count = self.written(chance, enums), chance.randrange(2, 6)
        if self.kind in ("enum", "variant"):
            enums.append(self.declared())

    def written(self, chance, enums):
        """The type as Rust writes it."""
        if self.kind in ("enum", "variant"):
            return f"E{len(enums)}"
        if self.kind == "number":
            return chance.choice(("u8", "i16", "u32", "u64"))
        names = [part.name for part in self.parts]
        if self.kind == "tuple":
            return tuple_of(names)
        forms = {
            "flag": "bool", "text": "&'static str", "option": "Option<{}>", "slice": "&'static [{}]",
            "reference": "&'static {}",
        }
        return forms[self.kind].format(*names)

    def declared(self):
        """The declaration of an enum: variants without fields, or two of which each has a field."""
        if self.kind == "enum":
            variants = [f"V{number}" for number in range(self.count)]
        else:
            variants = [f"V{number}({part.name})" for number, part in enumerate(self.parts)] + ["V2"]
        return f"pub enum {self.name} {{ " + ", ".join(variants) + " }\n"

    def pattern(self, chance, wild):
        """A random pattern, which is a wildcard with this likelihood, and has alternatives now and then."""
        if chance.random() < wild:
            return "_"
        if chance.random() < 0.12:
            return "(" + either(self.head(chance, wild) for _ in range(chance.randrange(2, 4))) + ")"
        return self.head(chance, wild)

    def head(self, chance, wild):
        """A random pattern that begins with a constructor."""
        return getattr(self, "head_of_" + self.kind)(chance, min(wild, 0.5))

    def head_of_flag(self, chance, _):
        return chance.choice(("true", "false"))

    def head_of_enum(self, chance, _):
        return f"{self.name}::V{chance.randrange(self.count)}"

    def head_of_number(self, chance, _):
        first, last = sorted((chance.randrange(128), chance.randrange(128)))
        return str(first) if chance.random() < 0.3 else span(first, last)

    def head_of_text(self, chance, _):
        return f'"{chance.choice(WORDS)}"'

    def head_of_option(self, chance, wild):
        return "None" if chance.random() < 0.4 else f"Some({self.parts[0].pattern(chance, wild)})"

    def head_of_slice(self, chance, wild):
        items = [self.parts[0].pattern(chance, wild) for _ in range(chance.randrange(4))]
        if chance.random() < 0.7:
            items.insert(chance.randrange(len(items) + 1), "..")
        return "&[" + ", ".join(items) + "]"

    def head_of_tuple(self, chance, wild):
        return tuple_of(part.pattern(chance, wild) for part in self.parts)

    def head_of_reference(self, chance, wild):
        pattern = self.parts[0].pattern(chance, wild)
        return f"&({pattern})" if "..=" in pattern else f"&{pattern}"

    def head_of_variant(self, chance, wild):
        number = chance.randrange(3)
        part = f"({self.parts[number].pattern(chance, wild)})" if number < 2 else ""
        return f"{self.name}::V{number}{part}"


def random_match(seed):
    """The source of a seed."""
    chance, enums = random.Random(seed), []
    columns = [Shape(chance, 0, enums) for _ in range(chance.randrange(3, 13))]
    wild, guards = chance.uniform(0.3, 0.85), chance.choice((0.0, 0.0, 0.1, 0.4))
    arms = []
    for _ in range(chance.randrange(10, 81)):
        arm = tuple_of(column.pattern(chance, wild) for column in columns)
        arms.append(arm + (" if guard()" if chance.random() < guards else ""))
    arms += ["_"] if seed % 2 else []
    return function(tuple_of(column.name for column in columns), arms, "".join(enums))


def read_words():
    """The words of the command line."""
    reader = argparse.ArgumentParser(description="Measures check beside rustc on random small matches.")
    reader.add_argument("--count", type=int, default=500, help="so many matches")
    reader.add_argument("--first", type=int, default=1, help="the seed of the first one")
    reader.add_argument("--limit", type=int, default=5, help="seconds that a run may take")
    reader.add_argument("--show", type=int, help="prints the match of this seed")
    reader.add_argument("--program", default=os.path.join(TOP, "crates/matchcheck/out/matchcheck"))
    words = reader.parse_args()
    words.program = os.path.abspath(words.program)
    if words.show is None and not os.access(words.program, os.X_OK):
        sys.exit(f"{words.program} is not built: cd crates/matchcheck && rt run")
    return words


def pair_of_runs(words, folder, text):
    """The runs of `check` and of rustc on a source. Where `check` is slower, both run again."""
    source, guarded = (os.path.join(folder, name) for name in ("source.rs", "guarded.rs"))
    for path, more in ((source, ""), (guarded, GUARD)):
        with open(path, "w", encoding="utf-8") as file:
            file.write(text + more)
    limits = Limits(words.limit, MEMORY, MEGABYTE)
    for _ in range(2):
        ours = limited([words.program, "check", source], limits, os.path.join(folder, "check"))
        theirs = rustc(guarded, words.limit, folder)
        if fine(ours, theirs):
            break
    return ours, theirs


def fine(ours, theirs):
    """Whether `check` was no slower than rustc, or neither came to an answer."""
    return not theirs.answered() or ours.answered() and ours.seconds <= theirs.seconds


def kind_of(ours, theirs):
    """What the two runs say of the match."""
    if ours.answered() and theirs.answered():
        return "both answered" if ours.status == theirs.status else "answers differ"
    return "check alone answered" if ours.answered() else "rustc alone" if theirs.answered() else "neither answered"


def main():
    """Measures the matches, and ends with status 1 where `check` was slower on one."""
    words = read_words()
    if words.show is not None:
        print(random_match(words.show), end="")
        return 0
    met, missed, kinds = 0, [], {}
    print("| seed | bytes | exhaustive | check | MB | rustc |\n|---|---|---|---|---|---|")
    with tempfile.TemporaryDirectory() as folder:
        for seed in range(words.first, words.first + words.count):
            text = random_match(seed)
            ours, theirs = pair_of_runs(words, folder, text)
            kind = kind_of(ours, theirs)
            kinds[kind] = kinds.get(kind, 0) + 1
            holds = fine(ours, theirs) and kind != "answers differ"
            met += holds
            missed += [] if holds else [str(seed)]
            if not holds:
                closed = {0: "yes", 1: "no"}.get(ours.status if ours.answered() else theirs.status, "not known")
                cells = [str(seed), f"{len(text):,}", closed, told(ours), f"{ours.memory:.0f}", told(theirs)]
                print("| " + " | ".join(cells) + " |", flush=True)
    print("\n" + ", ".join(f"{kind}: {number}" for kind, number in sorted(kinds.items())))
    print(f"{met} goals met, {len(missed)} missed" + (": seeds " + ", ".join(missed) if missed else ""))
    return 1 if missed else 0


if __name__ == "__main__":
    sys.exit(main())
