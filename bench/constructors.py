"""Matches by their constructors, as a program of families prints them, and the Rust that says the same."""
import subprocess
import sys

from measuring import read_words

LONGEST_RATIO = 2.0
STEEPEST = 1.5
SHORTEST = 0.002
# How often a family that missed a goal is measured again.
MORE = 4
NUMBERS = {
    ("0", "255"): "u8",
    ("0", "65535"): "u16",
    ("0", "4294967295"): "u32",
    ("0", "18446744073709551615"): "u64",
    ("-128", "127"): "i8",
}


class Reader:
    """The words of a match by its constructors, and the Rust that says the same."""

    def __init__(self, text):
        self.words = iter(text.split())
        self.types = []

    def word(self):
        return next(self.words)

    def number(self):
        return int(self.word())

    def declarations(self):
        """The types, read one after the other."""
        self.word()
        for _ in range(self.number()):
            self.types.append(self.declared())

    def declared(self):
        kind = self.word()
        if kind == "single":
            self.word()
            return kind, [self.number() for _ in range(self.number())]
        if kind == "point":
            return kind, self.number()
        if kind == "variants":
            self.word()
            marked, count = self.word() == "1", self.number()
            return kind, marked, [self.variant() for _ in range(count)]
        if kind == "numbers":
            low, high, more = self.word(), self.word(), self.word()
            if more == "1":
                self.word(), self.word()
                return "numbers", "char"
            return "numbers", NUMBERS[(low, high)]
        if kind == "rows":
            self.word()
            length, part = self.word(), self.number()
            return kind, length, part
        return (kind,)

    def variant(self):
        self.word()
        return [self.number() for _ in range(self.number())]

    def name(self, ty):
        """The type as Rust writes it."""
        told = self.types[ty]
        kind = told[0]
        if kind == "single":
            return "(" + "".join(self.name(part) + ", " for part in told[1]) + ")"
        if kind == "point":
            return "&" + self.name(told[1])
        if kind == "variants":
            return f"E{ty}"
        if kind == "rows":
            return f"[{self.name(told[2])}]" if told[1] == "-" else f"[{self.name(told[2])}; {told[1]}]"
        return {"flags": "bool", "texts": "str", "nothing": "!"}.get(kind) or told[1]

    def enums(self):
        """The declarations of the enums."""
        text = []
        for ty, told in enumerate(self.types):
            if told[0] == "variants":
                variants = []
                for k, parts in enumerate(told[2]):
                    fields = "(" + ", ".join(self.name(part) for part in parts) + ")" if parts else ""
                    variants.append(f"V{k}{fields}")
                marked = "#[non_exhaustive]\n" if told[1] else ""
                text.append(f"{marked}pub enum E{ty} {{ " + ", ".join(variants) + " }\n")
        return "".join(text)

    def bindings(self):
        """The next names; the families bind whole values alone."""
        names = []
        for _ in range(self.number()):
            names.append(self.word())
            self.word()
            if self.word() != "-":
                sys.exit("a name of a middle is not written")
        return names

    def head(self):
        """The next head: its kind, and its words; then come its offset, its range's offset and its names."""
        kind = self.word()
        counts = {"w": 0, "o": 1, "s": 1, "p": 0, "v": 2, "f": 1, "n": 2, "t": 1, "r": 1, "l": 2}
        words = [self.word() for _ in range(counts[kind])]
        self.word(), self.word()
        return kind, words, self.bindings()

    def pattern(self, ty):
        """The next pattern, of this type, as Rust writes it."""
        kind, words, names = self.head()
        told = self.types[ty]
        if kind == "w":
            return names[0] if names else "_"
        if kind == "o":
            return "(" + " | ".join(self.pattern(ty) for _ in range(int(words[0]))) + ")"
        if kind == "s":
            return "(" + "".join(self.pattern(part) + ", " for part in told[1]) + ")"
        if kind == "p":
            inner = self.pattern(told[1])
            return inner if self.types[told[1]][0] == "texts" else "&" + inner
        if kind == "v":
            parts = [self.pattern(part) for part in told[2][int(words[0])]]
            return f"E{ty}::V{words[0]}" + ("(" + ", ".join(parts) + ")" if parts else "")
        if kind == "f":
            return "true" if words[0] == "1" else "false"
        if kind == "n":
            return words[0] if words[0] == words[1] else f"{words[0]}..={words[1]}"
        if kind == "t":
            return '"' + bytes.fromhex(words[0][1:]).decode() + '"'
        if kind == "r":
            return "[" + ", ".join(self.pattern(told[2]) for _ in range(int(words[0]))) + "]"
        front, back = int(words[0]), int(words[1])
        items = [self.pattern(told[2]) for _ in range(front + back)]
        return "[" + ", ".join(items[:front] + [".."] + items[front:]) + "]"

    def source(self):
        """The match as a function, and the same whose last arm breaks a rule."""
        self.declarations()
        self.word()
        ty, _, count = self.number(), self.word(), self.number()
        arms = []
        for _ in range(count):
            guard = self.word() == "1"
            pattern = self.pattern(ty)
            arms.append(pattern.strip() + (" if g()" if guard else "") + " => {}\n")
        before = self.enums() + f"pub fn f(x: {self.name(ty)}) {{ match x {{\n"
        return before + "".join(arms) + "} }\n", before + "".join(arms) + "Nowhere::Nothing => {}\n} }\n"


def told(engine, name, n):
    """The match of a family and a size, as the program tells it."""
    return subprocess.run([engine, "family", name, str(n)], capture_output=True, text=True, check=True).stdout


def spent(engine, name, n, step, word, times):
    """The least processor time, of so many runs, that the program tells of one of its steps on the match."""
    runs = (subprocess.run([engine, "time", f"{name}:{n}", "", step], capture_output=True, text=True, check=True) for _ in range(times))
    told = (run.stdout.split() for run in runs)
    return min(float(words[words.index(word) + 1]) for words in told)


def turns_of(words, name, sizes, ours, step, word, turns, least):
    """Measures both programs so many times more at each size, by turns, and keeps the least time of each: what else the machine does only adds to a time. Ours
    is made of the least times so far."""
    for _ in range(turns):
        for n in sizes:
            other = spent(words.engine, name, n, step, word, words.times)
            least[n] = ours(words, name, n), min(other, least.get(n, (0.0, other))[1])


def judged(rows):
    """Tells whether times at sizes that double, each of the program and of the other, meet both goals."""
    fine, before = True, None
    for own, other in rows:
        if own > SHORTEST:
            fine = fine and own <= LONGEST_RATIO * max(other, 1e-9)
            fine = fine and (before is None or before[0] <= SHORTEST or own / before[0] <= STEEPEST * other / before[1])
        before = (own, other)
    return fine


def measured(words, name, first, ours, step, word, turns):
    """Prints a family's times at its sizes, each the least of so many turns, and tells whether it met its goals. Where it did not, turns are taken again, at
    all sizes, a few times: a goal that is met once times are short is met."""
    sizes, least = [first, 2 * first, 4 * first], {}
    for again in range(1 + MORE):
        turns_of(words, name, sizes, ours, step, word, turns, least)
        if judged([least[n] for n in sizes]):
            break
    before = None
    for n in sizes:
        own, other = least[n]
        growth = own / before[0] if before and before[0] > 0 else 0.0
        steepness = other / before[1] if before else 0.0
        print(f"{name:<24} {n:>6} {1000 * own:10.3f} {1000 * other:10.3f} {own / max(other, 1e-9):8.1f} {growth:8.2f} {steepness:8.2f}", flush=True)
        before = (own, other)
    fine = judged([least[n] for n in sizes])
    if again or not fine:
        print(f"{name:<24} {'met' if fine else 'MISSED'} after {(again + 1) * turns} turns", flush=True)
    return fine


def over_families(description, families, ours, step, word, by_turns=False):
    """Measures the families that the command line names, beside the step of the other program whose time has this word: one program so
    many times and then the other, or both by turns."""
    words = read_words(description, 5, ["engine"])
    turns, words.times = (words.times, 1) if by_turns else (1, words.times)
    print(f"{'family':<24} {'N':>6} {'ms':>10} {'plain ms':>10} {'ratio':>8} {'growth':>8} {'plain':>8}")
    chosen = [(name, first) for name, first in families if words.only in name and name != words.without]
    met = sum(measured(words, name, first, ours, step, word, turns) for name, first in chosen)
    print(f"{met} of {len(chosen)} families met their goals")
    return 0 if met == len(chosen) else 1
