"""The judgement of a checked match: the witness list, and what is unreachable.

A witness is `("any",)`, `("flag", b)`, `("range", low, high)`, `("text", t)`, `("else", texts)`, `("node", k, parts)`,
`("point", mutable, w)`, `("row", front, longer, back)` or `("later",)`; of a struct or a tuple `k` is 0.
"""
from patterns import ANY, Alternatives, Head
from declarations import numbers_of


class Places:
    """Types with the pieces of a column and their parts."""

    def __init__(self, declarations):
        self.declarations = declarations

    def pieces(self, ty, sure, heads):
        """The pieces of a column that have a value, in constructor order. A piece is a constructor as of a head,
        `("later",)` or `("else", texts)`."""
        kind = ty[0]
        if kind == "bool":
            return [("flag", False), ("flag", True)]
        if kind in ("int", "char"):
            return [piece for whole in numbers_of(ty) for piece in self.cut(whole, heads)]
        if kind == "str":
            texts = sorted({head[1] for head in heads}, key=lambda text: text.encode("utf-8"))
            return [("text", text) for text in texts] + [("else", tuple(texts))]
        if kind == "point":
            return [("point", ty[1])]
        if kind == "tuple":
            return [("single",)] if self.declarations.has_value(ty, sure) else []
        if kind == "slice":
            has_item = self.declarations.has_value(ty[1], sure)
            return [piece for piece in self.lengths(heads) if has_item or self.least(piece) == 0]
        if kind == "array":
            return [self.array_piece(ty[2], heads)] if self.declarations.has_value(ty, sure) else []
        if kind == "named":
            return self.variants(ty, sure)
        return []

    def variants(self, ty, sure):
        if not self.declarations.is_enum(ty[1]):
            return [("single",)] if self.declarations.has_value(ty, sure) else []
        found = []
        for number in range(len(self.declarations.variants(ty))):
            if self.declarations.variant_has_value(ty, number, sure):
                found.append(("variant", number))
        return found + ([("later",)] if self.declarations.is_marked(ty[1]) else [])

    @staticmethod
    def least(piece):
        return piece[1] if piece[0] == "fixed" else piece[1] + piece[2]

    @staticmethod
    def cut(whole, heads):
        """The whole range, cut where a head begins and behind where one ends."""
        low, high = whole
        begins = {head[1] for head in heads if head[1] is not None}
        begins |= {head[2] + 1 for head in heads if head[2] is not None}
        inside = sorted(n for n in begins if (low is None or low < n) and (high is None or n <= high))
        lows = [low] + inside
        highs = [n - 1 for n in inside] + [high]
        return [("range", one, other) for one, other in zip(lows, highs)]

    @staticmethod
    def lengths(heads):
        fixed = max([head[1] + 1 for head in heads if head[0] == "fixed"], default=0)
        front = max([head[1] for head in heads if head[0] == "longer"], default=0)
        back = max([head[2] for head in heads if head[0] == "longer"], default=0)
        longest = max(fixed, front + back)
        return [("fixed", n) for n in range(longest)] + [("longer", longest - back, back)]

    @staticmethod
    def array_piece(length, heads):
        front = max([head[1] for head in heads if head[0] == "longer"], default=0)
        back = max([head[2] for head in heads if head[0] == "longer"], default=0)
        if any(head[0] == "fixed" for head in heads) or front + back >= length:
            return ("fixed", length)
        return ("longer", front, back)

    def parts(self, ty, piece):
        """The types of a piece's parts."""
        if piece[0] in ("fixed", "longer"):
            return [ty[1]] * self.least(piece)
        if piece[0] == "point":
            return [ty[2]]
        if piece[0] == "single" and ty[0] == "tuple":
            return list(ty[1])
        if piece[0] in ("single", "variant"):
            return self.declarations.variants(ty)[piece[1] if piece[0] == "variant" else 0].types
        return []

    def parts_of(self, pattern, piece, count):
        """What a pattern that is no or-pattern asks of a piece's parts; None where it has nothing of the piece."""
        if pattern is ANY:
            return [ANY] * count
        constructor, parts = pattern.constructor, pattern.parts
        if constructor[0] == "range" and piece[0] == "range":
            low, high = constructor[1:]
            inside = (low is None or (piece[1] is not None and low <= piece[1])) and (
                high is None or (piece[2] is not None and piece[2] <= high)
            )
            return [] if inside else None
        if constructor[0] == "longer" and piece[0] in ("fixed", "longer"):
            if constructor[1] + constructor[2] > count:
                return None
            front, back = parts[: constructor[1]], parts[constructor[1] :]
            return front + [ANY] * (count - len(parts)) + back
        return parts if constructor == piece else None


def expanded(rows):
    """Rows whose first patterns are no or-patterns any more."""
    found = []
    for row in rows:
        if isinstance(row[0], Alternatives):
            found += expanded([[pattern] + row[1:] for pattern in row[0].patterns])
        else:
            found.append(row)
    return found


class Judge:
    def __init__(self, declarations, match):
        self.match = match
        self.declarations = declarations
        self.places = Places(declarations)

    # The witness list.
    def witnesses(self):
        match = self.match
        if self.declarations.is_bare(match.type) or not self.declarations.has_value(match.type, match.sure):
            return []
        rows = [[arm.pattern] for arm in match.arms if not arm.guarded]
        return [witness[0] for witness in self.missing([(match.type, match.sure)], rows)]

    def missing(self, places, rows):
        """Lists of witnesses, one of them for each open place."""
        if not places:
            return [] if rows else [[]]
        if not rows:
            return [[("any",)] * len(places)]
        rows = expanded(rows)
        if all(row[0] is ANY for row in rows):
            return [[("any",)] + rest for rest in self.missing(places[1:], [row[1:] for row in rows])]
        ty, sure = places[0]
        heads = [row[0].constructor for row in rows if row[0] is not ANY]
        found = []
        for piece in self.places.pieces(ty, sure, heads):
            types = self.places.parts(ty, piece)
            inner = [(part, sure and piece[0] != "point") for part in types]
            kept = []
            for row in rows:
                parts = self.places.parts_of(row[0], piece, len(types))
                if parts is not None:
                    kept.append(parts + row[1:])
            for witness in self.missing(inner + places[1:], kept):
                found.append([wrap(piece, witness[: len(types)])] + witness[len(types) :])
        return found

    # What is reached.
    def unreachable(self):
        """Entries `(arm, offset, whole)` in reading order."""
        match, earlier, found = self.match, [], []
        sure_of_value = not match.sure or self.declarations.has_value(match.type, True)
        for number, arm in enumerate(match.arms):
            ways = choices(arm.pattern)
            rows = list(earlier)
            reached, reached_alternatives = False, set()
            for trace, pattern in ways:
                if sure_of_value and self.is_useful([(match.type, match.sure)], rows, [pattern]):
                    reached = True
                    reached_alternatives.update(trace)
                if not arm.guarded:
                    rows.append([pattern])
            if not arm.guarded:
                earlier = rows
            if reached:
                found += self.dead_alternatives(number, arm, reached_alternatives)
            else:
                found.append((number, arm.at, True))
        return found

    @staticmethod
    def dead_alternatives(number, arm, reached):
        def stands_in_dead(place):
            parent = arm.parents[place]
            return parent is not None and (parent not in reached or stands_in_dead(parent))

        dead = [place for place in range(len(arm.offsets)) if place not in reached and not stands_in_dead(place)]
        return [(number, arm.offsets[place], False) for place in sorted(dead, key=lambda place: arm.offsets[place])]

    def is_useful(self, places, rows, query):
        """Whether some values of the places are matched by the query and by no row; there are no or-patterns."""
        if not places:
            return not rows
        if not rows:
            return self.has_match(places, query)
        ty, sure = places[0]
        if query[0] is ANY and all(row[0] is ANY for row in rows):
            return self.is_useful(places[1:], [row[1:] for row in rows], query[1:])
        heads = [row[0].constructor for row in rows + [query] if row[0] is not ANY]
        for piece in self.places.pieces(ty, sure, heads):
            types = self.places.parts(ty, piece)
            asked = self.places.parts_of(query[0], piece, len(types))
            if asked is None:
                continue
            inner = [(part, sure and piece[0] != "point") for part in types]
            kept = []
            for row in rows:
                parts = self.places.parts_of(row[0], piece, len(types))
                if parts is not None:
                    kept.append(parts + row[1:])
            if self.is_useful(inner + places[1:], kept, asked + query[1:]):
                return True
        return False

    def has_match(self, places, query):
        """Whether some values of the places, which all have values, are matched."""
        return all(self.some_match(ty, sure, pattern) for (ty, sure), pattern in zip(places, query))

    def some_match(self, ty, sure, pattern):
        if pattern is ANY:
            return True
        for piece in self.places.pieces(ty, sure, [pattern.constructor]):
            types = self.places.parts(ty, piece)
            asked = self.places.parts_of(pattern, piece, len(types))
            if asked is not None and self.has_match([(part, sure and piece[0] != "point") for part in types], asked):
                return True
        return False


def choices(pattern):
    """The patterns without alternatives that a pattern stands for, in the order of its ways, each with its trace."""
    if pattern is ANY:
        return [([], ANY)]
    if isinstance(pattern, Alternatives):
        return [
            ([place] + trace, chosen)
            for place, alternative in zip(pattern.places, pattern.patterns)
            for trace, chosen in choices(alternative)
        ]
    ways = [([], [])]
    for part in pattern.parts:
        ways = [(trace + more, parts + [chosen]) for trace, parts in ways for more, chosen in choices(part)]
    return [(trace, Head(pattern.constructor, parts, pattern.at)) for trace, parts in ways]


def wrap(piece, parts):
    """The witness of a piece with these witnesses as its parts."""
    kind = piece[0]
    if kind in ("single", "variant"):
        return ("node", piece[1] if kind == "variant" else 0, parts)
    if kind == "point":
        return ("point", piece[1], parts[0])
    if kind == "fixed":
        return ("row", parts, False, [])
    if kind == "longer":
        return ("row", parts[: piece[1]], True, parts[piece[1] :])
    return piece
