"""What a match does with a value: arms in order, in an arm its ways in order, guards asked one after the other.

A binding is `(name, mode, type, value)`; a bound rest has the type of its whole row.
"""
from judging import Places
from patterns import ANY, Alternatives, Naming


class Selection:
    def __init__(self, declarations):
        self.places = Places(declarations)

    def select(self, match, value, answers):
        """The guards that got an answer, each with its bindings, how it ends, and arm and bindings where one is taken."""
        asked, answers = [], iter(answers)
        for number, arm in enumerate(match.arms):
            for way in self.ways(arm.pattern, match.type, value):
                bindings = sorted(way, key=lambda it: it[0].encode("utf-8"))
                if not arm.guarded:
                    return asked, "took", number, bindings
                answer = next(answers, None)
                if answer is None:
                    return asked, "short", None, None
                asked.append((number, bindings))
                if answer:
                    return asked, "took", number, bindings
        return asked, "missed", None, None

    def ways(self, pattern, ty, value):
        """The bindings of each way in which the pattern matches the value, in order."""
        if pattern is ANY:
            yield []
        elif isinstance(pattern, Naming):
            held = value if pattern.middle is None else ("row", value[1][pattern.middle[0] : len(value[1]) - pattern.middle[1]])
            for way in self.ways(pattern.pattern, ty, value):
                yield [(pattern.name, pattern.mode, ty, held)] + way
        elif isinstance(pattern, Alternatives):
            for alternative in pattern.patterns:
                yield from self.ways(alternative, ty, value)
        else:
            parts = self.parts(pattern, ty, value)
            if parts is not None:
                yield from self.all_ways(parts)

    def all_ways(self, parts):
        """The combinations of the ways of the parts, the first part varying slowest."""
        if not parts:
            yield []
            return
        for way in self.ways(*parts[0]):
            for others in self.all_ways(parts[1:]):
                yield way + others

    def parts(self, head, ty, value):
        """The parts of a head, each with its type and the part of the value; None where it does not match."""
        kind, given = head.constructor[0], head.constructor[1:]
        if kind in ("flag", "text"):
            return [] if value == head.constructor else None
        if kind == "range":
            inside = value[0] == "num" and (given[0] is None or given[0] <= value[1]) and (given[1] is None or value[1] <= given[1])
            return [] if inside else None
        if kind == "point":
            return [(head.parts[0], ty[2], value[2])] if value[0] == "point" else None
        if kind in ("single", "variant"):
            number = given[0] if given else 0
            if value[:2] != ("node", number):
                return None
            return list(zip(head.parts, self.places.parts(ty, head.constructor), value[2]))
        if value[0] != "row" or (len(value[1]) != given[0] if kind == "fixed" else len(value[1]) < sum(given)):
            return None
        front = len(head.parts) if kind == "fixed" else given[0]
        items = value[1][:front] + (value[1][len(value[1]) - given[1] :] if kind == "longer" else [])
        return [(part, ty[1], item) for part, item in zip(head.parts, items)]
