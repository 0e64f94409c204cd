"""A second way to the judgement: values are made one by one, and each meets the patterns as they are written.

A value is `("flag", b)`, `("num", n)`, `("text", t)`, `("node", k, parts)`, `("point", mutable, v)`, `("row", items)`,
`("thing",)`, `("later",)` or `("unseen",)`. A number stands for all numbers that no literal or end of a range of the
match tells apart from it, and deep within a value, where no pattern looks, one value stands for all.
"""
from dataclasses import dataclass
from itertools import combinations, product
from typing import Optional

from declarations import TWICE, numbers_of
from patterns import ANY, Alternatives
import syntax as s

ENOUGH = 4000


class TooMany(Exception):
    """There are more values than are looked at."""


class Differs(Exception):
    """The two ways do not agree."""


@dataclass(frozen=True)
class Span:
    """A range of more than one number that was met: its offset, the number's position in the value, its two ends."""

    at: int
    position: tuple
    low: Optional[int]
    high: Optional[int]

    def has(self, number):
        return (self.low is None or self.low <= number) and (self.high is None or number <= self.high)


# The ways in which a written pattern matches a value. A way is the list of the alternatives that are chosen and of the
# spans that are met. A position is a list of numbers: of a part or an item in its row, 0 through a reference.
class Ways:
    def __init__(self, declarations):
        self.declarations = declarations

    def of(self, pattern, ty, value, position=()):
        """The ways of a pattern on a value of a type, in order; an alternative is known by its place in memory."""
        if isinstance(pattern, s.Wild):
            return [[]]
        if isinstance(pattern, s.Group):
            return self.of(pattern.inner, ty, value, position)
        if isinstance(pattern, s.Or):
            return [[id(one)] + way for one in pattern.alternatives for way in self.of(one, ty, value, position)]
        if isinstance(pattern, s.Point):
            through = value[0] == "point" and value[1] == pattern.mutable
            return self.of(pattern.inner, ty[2], value[2], position + (0,)) if through else []
        if isinstance(pattern, s.Named) and self.binds(pattern):
            return self.of(pattern.inner, ty, value, position) if pattern.inner else [[]]
        if isinstance(pattern, s.Literal) and pattern.literal.kind == "str":
            return [[]] if value == ("point", False, ("text", pattern.literal.value)) else []
        if value[0] == "point":
            return self.of(pattern, ty[2], value[2], position + (0,))
        if isinstance(pattern, s.Literal):
            number = pattern.literal
            return [[]] if value == ("flag" if number.kind == "flag" else "num", number.value) else []
        if isinstance(pattern, s.Range):
            return self.of_range(pattern, ty, value[1], position) if value[0] == "num" else []
        if isinstance(pattern, (s.TuplePattern, s.SlicePattern)):
            return self.of_list(pattern.items, ty, value, position)
        return self.of_form(pattern, ty, value, position)

    def binds(self, pattern):
        if not pattern.is_bare():
            return True
        found = self.declarations.find_name(pattern.name)
        return found is None or found == TWICE or found.kind == "brace"

    @staticmethod
    def of_range(pattern, ty, number, position):
        low = numbers_of(ty)[0][0] if pattern.low is None else pattern.low.value
        high = numbers_of(ty)[-1][1] if pattern.high is None else pattern.high.value
        if pattern.high is not None and not pattern.closed:
            high = below(ty, high)
        span = Span(pattern.at, position, low, high)
        if not span.has(number):
            return []
        return [[span] if low is None or high is None or low < high else []]

    def joined(self, patterns, types, values, position):
        found = [[]]
        for place, (pattern, ty, value) in enumerate(zip(patterns, types, values)):
            more = [[]] if pattern is None else self.of(pattern, ty, value, position + (place,))
            found = [way + other for way in found for other in more]
        return found

    def of_list(self, items, ty, value, position):
        if value[0] not in ("node", "row"):
            return []
        values = value[2] if value[0] == "node" else value[1]
        types = self.types(ty, value[1]) if value[0] == "node" else [ty[1]] * len(values)
        rest = [number for number, item in enumerate(items) if s.is_rest(item)]
        if not rest:
            return self.joined(items, types, values, position) if len(items) == len(values) else []
        others = len(items) - 1
        if others > len(values):
            return []
        front, back = items[: rest[0]], items[rest[0] + 1 :]
        return self.joined(front + [None] * (len(values) - others) + back, types, values, position)

    def types(self, ty, variant):
        return list(ty[1]) if ty[0] == "tuple" else self.declarations.variants(ty)[variant].types

    def of_form(self, pattern, ty, value, position):
        path = s.Path([pattern.name], True) if isinstance(pattern, s.Named) else pattern.path
        found = self.declarations.find(path)
        if value[0] != "node" or value[1] != found.variant:
            return []
        if isinstance(pattern, s.TupleForm):
            return self.of_list(pattern.items, ty, value, position)
        if not isinstance(pattern, s.BraceForm):
            return [[]]
        labels = self.labels(found)
        patterns = [None] * len(labels)
        for field in pattern.fields:
            patterns[labels.index(field.name)] = field.pattern
        return self.joined(patterns, self.types(ty, value[1]), value[2], position)

    def labels(self, found):
        if isinstance(found.owner, str):
            return [] if found.kind == "unit" else ["0"]
        return self.declarations.variants(("named", found.owner, ()))[found.variant].labels


def below(ty, number):
    """The greatest number of an integer or character type below a number that is not its least."""
    return 0xD7FF if ty == ("char",) and number == 0xE000 else number - 1


# The values of a type.
class Values:
    def __init__(self, declarations, patterns):
        self.declarations = declarations
        self.texts, self.edges, self.longest = set(), set(), 0
        for pattern in patterns:
            for node in s.nodes(pattern):
                self.look_at(node)
        fresh = "another"
        while fresh in self.texts:
            fresh += "'"
        self.all_texts = sorted(self.texts) + [fresh]

    def look_at(self, node):
        if isinstance(node, s.Literal) and node.literal.kind == "str":
            self.texts.add(node.literal.value)
        ends = [node.low, node.high] if isinstance(node, s.Range) else []
        if isinstance(node, s.Literal):
            ends = [node.literal]
        for end in ends:
            if end is not None and end.kind in ("int", "char", "byte"):
                self.edges |= {end.value, end.value + 1}
        if isinstance(node, s.SlicePattern):
            self.longest = max(self.longest, len(node.items))

    def numbers(self, ty):
        """The least number of the type, or one below all edges, and each edge in the type."""
        found = set()
        for low, high in numbers_of(ty):
            found.add(min(self.edges | {0}) - 1 if low is None else low)
            found |= {edge for edge in self.edges if (low is None or low <= edge) and (high is None or edge <= high)}
        return [("num", number) for number in sorted(found)]

    def one(self, ty, sure):
        """One value of a type, or None."""
        for height in range(1, 40):
            for value in self.small(ty, sure, height):
                return value
        return None

    def small(self, ty, sure, height):
        """At most one value of a type of at most that height."""
        if height == 0:
            return
        kind = ty[0]
        if self.declarations.is_bare(ty):
            if not sure:
                yield ("unseen",)
        elif kind == "bool":
            yield ("flag", False)
        elif kind in ("int", "char"):
            yield self.numbers(ty)[0]
        elif kind == "str":
            yield ("text", self.all_texts[-1])
        elif kind == "opaque":
            yield ("thing",)
        elif kind == "point":
            for value in self.small(ty[2], False, height - 1):
                yield ("point", ty[1], value)
        elif kind == "slice":
            yield ("row", [])
        elif kind == "array":
            if ty[2] > 8:
                raise TooMany
            for value in [None] if ty[2] == 0 else self.small(ty[1], sure, height - 1):
                yield ("row", [value] * ty[2])
        elif kind == "named" and self.declarations.is_marked(ty[1]):
            yield ("later",)
        else:
            for number, types in enumerate(self.forms(ty)):
                parts = [list(self.small(part, sure, height - 1)) for part in types]
                if all(parts):
                    yield ("node", number, [part[0] for part in parts])
                    return

    def forms(self, ty):
        return [list(ty[1])] if ty[0] == "tuple" else [variant.types for variant in self.declarations.variants(ty)]

    def all(self, ty, sure, depth):
        """Values of a type that show all that patterns of that depth can tell apart."""
        found = self.every(ty, sure, depth)
        if len(found) > ENOUGH:
            raise TooMany
        return found

    def every(self, ty, sure, depth):
        if depth == 0:
            value = self.one(ty, sure)
            return [] if value is None else [value]
        kind = ty[0]
        if self.declarations.is_bare(ty):
            return [] if sure else [("unseen",)]
        if kind == "bool":
            return [("flag", False), ("flag", True)]
        if kind in ("int", "char"):
            return self.numbers(ty)
        if kind == "str":
            return [("text", text) for text in self.all_texts]
        if kind == "opaque":
            return [("thing",)]
        if kind == "point":
            return [("point", ty[1], value) for value in self.all(ty[2], False, depth - 1)]
        if kind in ("slice", "array"):
            return self.rows(ty, sure, depth)
        found = []
        for number, types in enumerate(self.forms(ty)):
            found += [("node", number, list(parts)) for parts in self.products(types, sure, depth)]
        if kind == "named" and self.declarations.is_marked(ty[1]):
            found.append(("later",))
        return found

    def rows(self, ty, sure, depth):
        lengths = [ty[2]] if ty[0] == "array" else range(self.longest * 2 + 2)
        found = []
        for length in lengths:
            if length > 12:
                raise TooMany
            found += [("row", list(items)) for items in self.products([ty[1]] * length, sure, depth)]
        return found

    def products(self, types, sure, depth):
        parts = [self.all(ty, sure, depth - 1) for ty in types]
        count = 1
        for part in parts:
            count *= len(part)
        if count > ENOUGH:
            raise TooMany
        return product(*parts)


def depth_of(pattern):
    """How deep a checked pattern looks into a value."""
    if pattern is ANY:
        return 0
    if isinstance(pattern, Alternatives):
        return max(depth_of(one) for one in pattern.patterns)
    return 1 + max([depth_of(part) for part in pattern.parts], default=0)


def fits(witness, value):
    kind = witness[0]
    if kind == "any":
        return True
    if kind == "range":
        low, high = witness[1:]
        return value[0] == "num" and (low is None or low <= value[1]) and (high is None or value[1] <= high)
    if kind == "else":
        return value[0] == "text" and value[1] not in witness[1]
    if kind == "node":
        return value[0] == "node" and value[1] == witness[1] and all(map(fits, witness[2], value[2]))
    if kind == "point":
        return value[0] == "point" and fits(witness[2], value[2])
    if kind == "row":
        front, longer, back = witness[1:]
        if value[0] != "row" or len(value[1]) < len(front) + len(back):
            return False
        if not longer and len(value[1]) != len(front) + len(back):
            return False
        return all(map(fits, front, value[1])) and all(map(fits, back, value[1][len(value[1]) - len(back) :]))
    return value == witness


class Reached:
    """Which arms and alternatives some value comes to."""

    def __init__(self, arms):
        self.arms = arms
        self.reached = set()
        self.alternatives = [set() for _ in arms]

    def entries(self):
        found = []
        for number, arm in enumerate(self.arms):
            if number not in self.reached:
                found.append((number, arm.pattern.at, True))
            else:
                found += [(number, at, False) for at in sorted(self.dead(arm.pattern, self.alternatives[number]))]
        return found

    def dead(self, pattern, reached):
        """The offsets of the alternatives within a pattern that are not reached, the parts of such left out."""
        found = []
        for child in s.children(pattern):
            if isinstance(pattern, s.Or) and id(child) not in reached:
                found.append(child.at)
            else:
                found += self.dead(child, reached)
        return found


def met_together(ways):
    """The overlaps that are met in two of the ways of one value."""
    spans = [(number, item) for number, way in enumerate(ways) for item in way if isinstance(item, Span)]
    for (number, one), (other_number, other) in combinations(spans, 2):
        if number != other_number and one.position == other.position and one.at != other.at:
            first, second = (one, other) if one.at < other.at else (other, one)
            for x in {first.low, first.high} & {second.low, second.high} - {None}:
                alone = not any(first.has(y) and second.has(y) for y in (x - 1, x + 1))
                if alone and (first.high == second.low == x or second.high == first.low == x):
                    yield (first.at, second.at, x), one.position


def part_at(value, position):
    """The part of a value at a position."""
    for place in position:
        value = value[2] if value[0] == "point" else (value[2] if value[0] == "node" else value[1])[place]
    return value


def cross_check(declarations, number, match, witnesses, unreachable, overlaps):
    """Compares a judgement with what values one by one show. Differs is raised where it is another; the answer tells
    whether there were few enough values for it."""
    arms = declarations.items[number].kind.arms
    values = Values(declarations, [arm.pattern for arm in arms])
    depth = max([depth_of(arm.pattern) for arm in match.arms], default=0) + 1
    try:
        domain = values.all(match.type, match.sure, depth)
    except TooMany:
        return False
    ways = Ways(declarations)
    reached = Reached(arms)
    fitted, overlapping = set(), set()
    for value in domain:
        fitting = [place for place, witness in enumerate(witnesses) if fits(witness, value)]
        fitted.update(fitting)
        all_ways = [ways.of(arm.pattern, match.type, value) for arm in arms]
        for overlap, position in met_together([way for found in all_ways for way in found]):
            if part_at(value, position) == ("num", overlap[2]):
                overlapping.add(overlap)
        covered = meet(arms, all_ways, reached)
        wanted = 0 if covered or value == ("unseen",) else 1
        if len(fitting) != wanted:
            raise Differs(f"function {number}: {value} fits witnesses {fitting}, covered: {covered}")
    if len(fitted) != len(witnesses):
        raise Differs(f"function {number}: some witness is fitted by no value")
    if reached.entries() != unreachable:
        raise Differs(f"function {number}: unreachable {unreachable}, by values {reached.entries()}")
    if sorted(overlapping) != overlaps:
        raise Differs(f"function {number}: overlaps {overlaps}, by values {sorted(overlapping)}")
    return True


def meet(arms, all_ways, reached):
    """Marks what a value with these ways comes to, and tells whether an unguarded arm matches it."""
    for number, (arm, found) in enumerate(zip(arms, all_ways)):
        if found:
            reached.reached.add(number)
            for way in found if arm.guarded else found[:1]:
                reached.alternatives[number].update(way)
            if not arm.guarded:
                return True
    return False
