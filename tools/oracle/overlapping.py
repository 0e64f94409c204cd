"""The overlapping ranges of a checked match: two ranges of more than one number that two ways of one value have met at
one part of it, which is the last number of one of them and the first of the other.

Each choice of alternatives is a pattern by itself here. Two of them are laid over each other part by part; what neither
writes wants a value of its type.
"""
from judging import Places, choices
from patterns import ANY


def spans_of(pattern):
    """The ranges of more than one number in a pattern without alternatives."""
    if pattern is ANY:
        return []
    if is_span(pattern):
        return [pattern]
    return [span for part in pattern.parts for span in spans_of(part)]


def is_span(head):
    """Whether a head is a range of more than one number. No range is free on both sides."""
    return head.constructor[0] == "range" and head.constructor[1] != head.constructor[2]


def joint(one, other):
    """The number that is the last of one of two ranges and the first of the other, or None. Each has more than one number,
    so it is the only one that both have."""
    (_, low, high), (_, other_low, other_high) = one.constructor, other.constructor
    if high is not None and high == other_low:
        return high
    if low is not None and low == other_high:
        return low
    return None


class Overlapping:
    def __init__(self, declarations, match):
        self.match = match
        self.declarations = declarations
        self.places = Places(declarations)

    def triples(self):
        """Triples of two offsets and a number, ascending."""
        ways = [way for arm in self.match.arms for _, way in choices(arm.pattern)]
        begins = {}
        for number, way in enumerate(ways):
            for low in {span.constructor[1] for span in spans_of(way)}:
                begins.setdefault(low, []).append(number)
        found = set()
        for number, way in enumerate(ways):
            highs = {span.constructor[2] for span in spans_of(way)} - {None}
            for other in {other for high in highs for other in begins.get(high, [])}:
                found |= self.touching(self.match.type, self.match.sure, way, ways[other])
        return sorted(found)

    def touching(self, ty, sure, one, other):
        """The overlaps within a place, of values that both patterns match there."""
        if one is ANY or other is ANY:
            return set()
        if one.constructor[0] == "range":
            number = joint(one, other) if is_span(one) and is_span(other) else None
            return set() if number is None else {(min(one.at, other.at), max(one.at, other.at), number)}
        found = set()
        for parts in self.parts_of_both(ty, sure, one, other):
            for place, part in enumerate(parts):
                inner = self.touching(*part)
                if inner and all(self.meet(*it) for it in parts[:place] + parts[place + 1 :]):
                    found |= inner
        return found

    def meet(self, ty, sure, one, other):
        """Whether some value at a place is matched by both patterns."""
        if one is ANY and other is ANY:
            return self.declarations.has_value(ty, sure)
        if one is ANY:
            one, other = other, one
        if one.constructor[0] == "range":
            return other is ANY or self.ranges_meet(one.constructor, other.constructor)
        return any(all(self.meet(*part) for part in parts) for parts in self.parts_of_both(ty, sure, one, other))

    @staticmethod
    def ranges_meet(one, other):
        """The ends that are numbers are numbers of the type, so a number that two ranges have can be an end."""

        def reaches(low, high):
            return low is None or high is None or low <= high

        return reaches(one[1], other[2]) and reaches(other[1], one[2])

    def parts_of_both(self, ty, sure, one, other):
        """Lists of parts, each with its type, its validity and what the two patterns ask of it; the second may be any
        value. Rows have a list for each length at which other items meet."""
        kind = one.constructor[0]
        if kind in ("fixed", "longer"):
            return [self.items(ty, sure, one, other, length) for length in self.lengths(ty, one, other)]
        if other is not ANY and one.constructor != other.constructor:
            return []
        types = self.places.parts(ty, one.constructor)
        others = [ANY] * len(types) if other is ANY else other.parts
        return [[(part, sure and kind != "point", *pair) for part, *pair in zip(types, one.parts, others)]]

    @staticmethod
    def lengths(ty, one, other):
        """The lengths at which both patterns match rows, up to one where no item from the front is one from the back."""
        sides = [it.constructor for it in (one, other) if it is not ANY]
        fixed = {side[1] for side in sides if side[0] == "fixed"} | ({ty[2]} if ty[0] == "array" else set())
        least = max(sum(side[1:]) for side in sides)
        if fixed:
            return [length for length in fixed if len(fixed) == 1 and length >= least]
        return range(least, max(side[1] for side in sides) + max(side[2] for side in sides) + 1)

    def items(self, ty, sure, one, other, length):
        """The items that one of the patterns writes, and one more where there are others."""
        asked = {}
        for which, pattern in enumerate((one, other)):
            if pattern is ANY:
                continue
            front = len(pattern.parts) if pattern.constructor[0] == "fixed" else pattern.constructor[1]
            for place, part in enumerate(pattern.parts):
                where = place if place < front else length - len(pattern.parts) + place
                asked.setdefault(where, [ANY, ANY])[which] = part
        found = [(ty[1], sure, *asked[where]) for where in sorted(asked)]
        return found + ([(ty[1], sure, ANY, ANY)] if len(asked) < length else [])
