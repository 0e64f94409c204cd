"""The decision tree of a checked match, from the rules on trees.

A place is a tuple of steps: `("through",)`, `("field", variant, part)`, `("front", i)`, `("back", i)`, `("middle", a, b)`. A tree is
`("switch", place, ((case, tree), ..))`, `("ask", arm, binds, tree)`, `("take", arm, binds)`, `("miss",)` or `("void",)`, where
a bind is `(name, mode, place)` and a case a list as it is written. Equal trees are one node.
"""
from dataclasses import dataclass
from functools import cmp_to_key

from judging import Places
from patterns import ANY, Alternatives, Naming


@dataclass(frozen=True)
class Column:
    place: tuple
    type: tuple
    sure: bool


@dataclass(frozen=True)
class Row:
    """`decided` has the alternative of each or-pattern that was taken apart, by the or-pattern's number in the arm."""

    heads: tuple
    arm: int
    guarded: bool
    decided: tuple
    caught: tuple


def bare(pattern):
    """The names that a pattern binds by itself, and what is left of it."""
    names = []
    while isinstance(pattern, Naming):
        names.append((pattern.name, pattern.mode, pattern.middle))
        pattern = pattern.pattern
    return names, pattern


def number_alternatives(pattern, numbers):
    """Numbers the or-patterns in reading order, parts in the order of declaration."""
    _, pattern = bare(pattern)
    if isinstance(pattern, Alternatives):
        numbers[id(pattern)] = len(numbers)
        for alternative in pattern.patterns:
            number_alternatives(alternative, numbers)
    elif pattern is not ANY:
        for part in pattern.parts:
            number_alternatives(part, numbers)


def held(names, place):
    """The names at the place, each with the place of what it holds."""
    return tuple((name, mode, place + (("middle",) + middle,) if middle else place) for name, mode, middle in names)


def before(one, other):
    """Which of two rows comes first."""
    if one.arm != other.arm:
        return one.arm - other.arm
    left, right = dict(one.decided), dict(other.decided)
    for number in sorted(left.keys() | right.keys()):
        if left.get(number) != right.get(number):
            return left[number] - right[number]
    return 0


class Lowering:
    def __init__(self, declarations, match, writer):
        self.match, self.writer = match, writer
        self.declarations = declarations
        self.places = Places(declarations)
        self.numbers = {}
        for arm in match.arms:
            own = {}
            number_alternatives(arm.pattern, own)
            self.numbers.update(own)

    def tree(self):
        match = self.match
        bare_type = self.declarations.is_bare(match.type)
        if bare_type and match.sure or not bare_type and not self.declarations.has_value(match.type, match.sure):
            return ("void",)
        self.end = ("void",) if bare_type else ("miss",)
        rows = [Row((arm.pattern,), number, arm.guarded, (), ()) for number, arm in enumerate(match.arms)]
        return self.lower([Column((), match.type, match.sure)], rows)

    @staticmethod
    def is_wild(head):
        return bare(head)[1] is ANY

    def lower(self, columns, rows):
        if not rows:
            return self.end
        first = rows[0]
        if all(self.is_wild(head) for head in first.heads):
            binds = first.caught
            for column, head in zip(columns, first.heads):
                binds += held(bare(head)[0], column.place)
            binds = tuple(sorted(binds, key=lambda bind: bind[0].encode("utf-8")))
            if not first.guarded:
                return ("take", first.arm, binds)
            return ("ask", first.arm, binds, self.lower(columns, rows[1:]))
        asked = [i for i, head in enumerate(first.heads) if not self.is_wild(head)]
        i = min(asked, key=lambda i: (self.branches(columns[i], rows, i), i))
        rows = sorted(self.expand(columns[i].place, rows, i), key=cmp_to_key(before))
        return self.look(columns, rows, i)

    def branches(self, column, rows, i):
        """How many cases a switch at the column would have."""
        rows = self.expand(column.place, rows, i)
        heads = [bare(row.heads[i])[1] for row in rows if not self.is_wild(row.heads[i])]
        if not heads:
            return 0
        present, missing = self.split(column, heads)
        return len(present) + bool(missing)

    def split(self, column, heads):
        """The pieces of the column with a value that some head has, and those that none has."""
        pieces = self.places.pieces(column.type, column.sure, [head.constructor for head in heads])
        present, missing = [], []
        for piece in pieces:
            count = len(self.places.parts(column.type, piece))
            has = any(self.places.parts_of(head, piece, count) is not None for head in heads)
            (present if has else missing).append(piece)
        return present, missing

    def expand(self, place, rows, i):
        """The rows, none of which has an or-pattern in column `i` any more."""
        found = []
        for row in rows:
            names, pattern = bare(row.heads[i])
            if not isinstance(pattern, Alternatives):
                found.append(row)
                continue
            for number, alternative in enumerate(pattern.patterns):
                heads = row.heads[:i] + (alternative,) + row.heads[i + 1 :]
                decided = row.decided + ((self.numbers[id(pattern)], number),)
                one = Row(heads, row.arm, row.guarded, decided, row.caught + held(names, place))
                found += self.expand(place, [one], i)
        return found

    def look(self, columns, rows, i):
        column = columns[i]
        heads = [bare(row.heads[i])[1] for row in rows if not self.is_wild(row.heads[i])]
        if not heads:
            return self.lower(columns[:i] + columns[i + 1 :], self.without(column.place, rows, i))
        present, missing = self.split(column, heads)
        kind = column.type[0]
        if kind in ("tuple", "point", "array") or kind == "named" and not self.declarations.is_enum(column.type[1]):
            return self.enter(columns, rows, i, present[0])
        cases = [(self.case(column.type, piece), self.enter(columns, rows, i, piece)) for piece in present]
        if missing:
            rest = self.without(column.place, rows, i)
            cases.append((("else",), self.lower(columns[:i] + columns[i + 1 :], rest)))
        return ("switch", column.place, tuple(cases))

    def without(self, place, rows, i):
        """The rows that are wild in column `i`, without it."""
        found = []
        for row in rows:
            names, pattern = bare(row.heads[i])
            if pattern is ANY:
                heads = row.heads[:i] + row.heads[i + 1 :]
                found.append(Row(heads, row.arm, row.guarded, row.decided, row.caught + held(names, place)))
        return found

    def enter(self, columns, rows, i, piece):
        column = columns[i]
        types = self.places.parts(column.type, piece)
        inner = [
            Column(column.place + (self.step(piece, part),), ty, column.sure and piece[0] != "point")
            for part, ty in enumerate(types)
        ]
        found = []
        for row in rows:
            names, pattern = bare(row.heads[i])
            parts = self.places.parts_of(pattern, piece, len(types))
            if parts is not None:
                heads = row.heads[:i] + tuple(parts) + row.heads[i + 1 :]
                caught = row.caught + held(names, column.place)
                found.append(Row(heads, row.arm, row.guarded, row.decided, caught))
        return self.lower(columns[:i] + inner + columns[i + 1 :], found)

    @staticmethod
    def step(piece, part):
        kind = piece[0]
        if kind == "point":
            return ("through",)
        if kind == "variant":
            return ("field", piece[1], part)
        if kind == "fixed" or kind == "longer" and part < piece[1]:
            return ("front", part)
        if kind == "longer":
            return ("back", piece[1] + piece[2] - part)
        return ("field", 0, part)

    def case(self, ty, piece):
        kind = piece[0]
        if kind == "variant":
            return ("variant", self.writer.name(ty, piece[1]))
        if kind == "range":
            return ("range",) + tuple(None if end is None else str(end) for end in piece[1:])
        if kind == "fixed":
            return ("length", piece[1])
        return piece


def numbered(root):
    """The nodes of a tree, each once: by a walk that takes cases from last to first, the node that is finished last is 0."""
    finished, entered, work = {}, set(), [(root, False)]
    while work:
        tree, done = work.pop()
        if done:
            finished[tree] = len(finished)
            continue
        if tree in entered:
            continue
        entered.add(tree)
        work.append((tree, True))
        if tree[0] == "switch":
            work += [(next_tree, False) for _, next_tree in tree[2]]
        elif tree[0] == "ask":
            work.append((tree[3], False))
    last = len(finished) - 1
    return [node(tree, {it: last - n for it, n in finished.items()}) for tree in reversed(list(finished))]


def node(tree, numbers):
    if tree[0] == "switch":
        return ["switch", place_text(tree[1]), [[list(case), numbers[it]] for case, it in tree[2]]]
    if tree[0] in ("ask", "take"):
        binds = [[name, mode, place_text(place)] for name, mode, place in tree[2]]
        return [tree[0], tree[1], binds] + ([numbers[tree[3]]] if tree[0] == "ask" else [])
    return list(tree)


def place_text(place):
    def one(step):
        if step[0] == "through":
            return "*"
        if step[0] == "field":
            return ".%d" % step[2]
        if step[0] == "middle":
            return "[%d..-%d]" % step[1:]
        return ("[%d]" if step[0] == "front" else "[-%d]") % step[1]

    return "$" + "".join(map(one, place))
