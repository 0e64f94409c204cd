"""The rules 20 to 35 on a function, and its patterns with every reference written out.

A checked pattern is `Any`, an `Alternatives` or a `Head`. The constructor of a head is `("flag", b)`,
`("range", low, high)` with `None` for a free end, `("text", t)`, `("point", mutable)`, `("single",)` for tuples and
structs, `("variant", k)`, `("fixed", n)` or `("longer", front, back)`; of the last two the parts are the items from
the front and then those from the back.
"""
from dataclasses import dataclass

from declarations import INTEGERS, TWICE, literals_of, numbers_of
from fault import Fault
import syntax as s


class Any:
    def __repr__(self):
        return "_"


ANY = Any()


@dataclass
class Alternatives:
    """`places` has the number of each alternative among all alternatives of the arm, in reading order."""

    places: list
    patterns: list


@dataclass
class Head:
    """`at` is the offset of a written range or literal, else None."""

    constructor: tuple
    parts: list
    at: int = None


@dataclass
class Naming:
    """A pattern that binds a name to its whole part, or to its middle items, without so many at each end. Only patterns that
    are asked for with their names have it."""

    name: str
    mode: str
    middle: tuple
    pattern: object


@dataclass
class CheckedArm:
    """`offsets` has the offset of each alternative of the arm in reading order, `parents` the alternative around."""

    at: int
    pattern: object
    guarded: bool
    offsets: list
    parents: list


@dataclass
class CheckedMatch:
    type: tuple
    sure: bool
    arms: list


def through(ty, mode):
    """The type and mode behind all references, and whether each of them is mutable."""
    points = []
    while ty[0] == "point":
        points.append(ty[1])
        mode = "ref" if not ty[1] else "ref mut" if mode == "move" else mode
        ty = ty[2]
    return ty, mode, points


def behind(points, pattern):
    for mutable in reversed(points):
        pattern = Head(("point", mutable), [pattern])
    return pattern


class ArmChecker:
    """Checks the nodes of an arm in reading order. `alternatives_of` has what each or-pattern's alternatives bind."""

    def __init__(self, declarations, names):
        self.declarations = declarations
        self.names = names
        self.bound = []
        self.alternatives_of = []
        self.offsets = []
        self.parents = []
        self.around = []

    @staticmethod
    def refuse(node, rules):
        if rules:
            raise Fault(min(rules), at=node.at)

    def visit(self, node, ty, mode, in_slice=False):
        """The checked pattern of a node at a place of that type and mode; its first fault is raised."""
        if isinstance(node, (s.Wild, s.Rest)):
            return ANY
        if isinstance(node, s.Group):
            return self.visit(node.inner, ty, mode)
        if isinstance(node, s.Or):
            return self.alternatives(node, ty, mode)
        if isinstance(node, s.Point):
            return self.point(node, ty, mode)
        if isinstance(node, s.Named):
            return self.named(node, ty, mode)
        if isinstance(node, s.Literal) and node.literal.kind == "str":
            self.refuse(node, set() if ty == ("point", False, ("str",)) else {22})
            return Head(("point", False), [Head(("text", node.literal.value), [])])
        inner, inner_mode, points = through(ty, mode)
        if isinstance(node, s.Literal):
            found = self.literal(node, inner)
        elif isinstance(node, s.Range):
            found = self.range(node, inner, in_slice)
        elif isinstance(node, s.TuplePattern):
            found = self.tuple(node, inner, inner_mode)
        elif isinstance(node, s.SlicePattern):
            found = self.slice(node, inner, inner_mode)
        else:
            found = self.form(node, inner, inner_mode)
        return behind(points, found)

    def alternatives(self, node, ty, mode):
        entry = []
        self.alternatives_of.append((node.at, entry))
        places, patterns = [], []
        for number, alternative in enumerate(node.alternatives):
            places.append(len(self.offsets))
            self.offsets.append(alternative.at)
            self.parents.append(self.around[-1][2] if self.around else None)
            begin = len(self.bound)
            self.around.append((id(node), number, places[-1]))
            patterns.append(self.visit(alternative, ty, mode))
            self.around.pop()
            entry.append({(name, bound_type, bound_mode) for name, bound_type, bound_mode, _ in self.bound[begin:]})
        return Alternatives(places, patterns)

    def point(self, node, ty, mode):
        rules = set()
        if ty[0] != "point" or ty[1] != node.mutable:
            rules.add(22)
        rules |= self.mode_rules(mode)
        self.refuse(node, rules)
        return Head(("point", node.mutable), [self.visit(node.inner, ty[2], "move")])

    def mode_rules(self, mode):
        """The rule that a written mode, `&` or `&mut` breaks where the binding mode is this."""
        return {32} if mode != "move" and self.declarations.options.edition == 2024 else set()

    def named(self, node, ty, mode):
        rules = set()
        if not node.short:
            found = self.declarations.find_name(node.name)
            if found == TWICE:
                rules.add(20)
            elif found is not None and found.kind == "tuple":
                rules.add(21)
            elif found is not None and found.kind == "unit":
                if node.is_bare():
                    return self.unit(node, found, ty)
                rules.add(21)
        if self.is_bound(node.name):
            rules.add(30)
        if node.by_ref or node.mutable:
            rules |= self.mode_rules(mode)
        self.refuse(node, rules)
        bound_mode = ("ref mut" if node.mutable else "ref") if node.by_ref else "move" if node.mutable else mode
        self.bound.append((node.name, ty, bound_mode, list(self.around)))
        found = self.visit(node.inner, ty, mode) if node.inner else ANY
        return Naming(node.name, bound_mode, None, found) if self.names else found

    def is_bound(self, name):
        """Whether a name was bound before, and no or-pattern holds the two in different alternatives."""
        here = {choice[0]: choice[1] for choice in self.around}
        return any(
            name == earlier and all(here.get(choice[0], choice[1]) == choice[1] for choice in around)
            for earlier, _, _, around in self.bound
        )

    def meets(self, found, ty):
        return ty[0] == "named" and ty[1] == found.owner

    def head_of(self, found, parts):
        return Head(("single",) if found.is_struct else ("variant", found.variant), parts)

    def unit(self, node, found, ty):
        """A name alone that finds a unit form."""
        inner, _, points = through(ty, "move")
        self.refuse(node, set() if self.meets(found, inner) else {22})
        return behind(points, self.head_of(found, []))

    def form(self, node, ty, mode):
        """A path alone, or with round or curly brackets."""
        rules, found = set(), None
        if not node.path.is_supported():
            rules.add(35)
        else:
            found = self.declarations.find(node.path)
            if found is None or found == TWICE:
                rules.add(20)
                found = None
        if found is not None and not self.meets(found, ty):
            rules.add(22)
        variant = None
        if found is not None and self.meets(found, ty):
            variant = self.declarations.variants(ty)[found.variant]
        if isinstance(node, s.PathPattern):
            if found is not None and found.kind != "unit":
                rules.add(23)
            self.refuse(node, rules)
            return self.head_of(found, [])
        if isinstance(node, s.TupleForm):
            if found is not None and found.kind != "tuple":
                rules.add(23)
            return self.tuple_form(node, found, variant, mode, rules)
        return self.brace_form(node, found, variant, mode, rules)

    @staticmethod
    def counts(items, count, rules):
        """The rules that a list of items breaks against a number of parts; `count` is None where it isn't known."""
        rests = sum(1 for item in items if s.is_rest(item))
        if rests > 1:
            rules.discard(23)
            rules.add(27)
        elif count is not None and (len(items) - 1 > count if rests else len(items) != count):
            rules.add(23)

    def parts_in_order(self, items, types, mode):
        """The parts of a tuple or tuple form, with nothing at a rest."""
        rest = [number for number, item in enumerate(items) if s.is_rest(item)]
        parts = [ANY] * len(types)
        for number, item in enumerate(items):
            if rest and number == rest[0]:
                continue
            place = number if not rest or number < rest[0] else len(types) - len(items) + number
            parts[place] = self.visit(item, types[place], mode)
        return parts

    def tuple_form(self, node, found, variant, mode, rules):
        self.counts(node.items, len(variant.types) if variant is not None and found.kind == "tuple" else None, rules)
        self.refuse(node, rules)
        return self.head_of(found, self.parts_in_order(node.items, variant.types, mode))

    def brace_form(self, node, found, variant, mode, rules):
        names = [field.name for field in node.fields]
        if len(set(names)) != len(names):
            rules.add(25)
        if variant is not None:
            if any(name not in variant.labels for name in names):
                rules.add(24)
            if not node.rest and any(label not in names for label in variant.labels):
                rules.add(26)
        self.refuse(node, rules)
        parts = [ANY] * len(variant.types)
        for field in node.fields:
            place = variant.labels.index(field.name)
            parts[place] = self.visit(field.pattern, variant.types[place], mode)
        return self.head_of(found, parts)

    def tuple(self, node, ty, mode):
        rules = set() if ty[0] == "tuple" else {22}
        self.counts(node.items, len(ty[1]) if ty[0] == "tuple" else None, rules)
        self.refuse(node, rules)
        return Head(("single",), self.parts_in_order(node.items, ty[1], mode))

    def slice(self, node, ty, mode):
        rules = set() if ty[0] in ("slice", "array") else {22}
        rest = [number for number, item in enumerate(node.items) if s.is_rest(item)]
        if ty[0] == "array" or len(rest) > 1:
            self.counts(node.items, ty[2] if ty[0] == "array" else None, rules)
        self.refuse(node, rules)
        parts, others, named = [], len(node.items) - 1, None
        for item in node.items:
            if s.is_rest(item):
                if isinstance(item, s.Named):
                    middle = ("slice", ty[1]) if ty[0] == "slice" else ("array", ty[1], ty[2] - others)
                    named = self.named(item, middle, mode)
            else:
                parts.append(self.visit(item, ty[1], mode, True))
        if not rest:
            return Head(("fixed", len(parts)), parts)
        found = Head(("longer", rest[0], len(parts) - rest[0]), parts)
        if isinstance(named, Naming):
            return Naming(named.name, named.mode, (rest[0], len(parts) - rest[0]), found)
        return found

    # Literals and ranges.
    def number_rules(self, number, ty):
        """The rules that a literal or an end of a range breaks."""
        if number.kind == "other" or (number.suffix and number.suffix not in INTEGERS):
            return {35}
        if number.kind == "flag":
            return set() if ty == ("bool",) else {22}
        wanted = {"char": ("char",), "byte": ("int", "u8")}.get(number.kind)
        if wanted is None:
            wanted = self.declarations.integer(number.suffix) if number.suffix else ty if ty[0] == "int" else None
        if ty != wanted:
            return {22}
        inside = number.value is not None and any(low <= number.value <= high for low, high in literals_of(ty))
        return set() if inside else {28}

    def literal(self, node, ty):
        number = node.literal
        self.refuse(node, self.number_rules(number, ty))
        if number.kind == "flag":
            return Head(("flag", number.value), [])
        return Head(("range", number.value, number.value), [], node.at)

    def range(self, node, ty, in_slice):
        rules = set()
        for end in (node.low, node.high):
            if end is not None:
                rules |= self.number_rules(end, ty)
        if 35 in rules:
            rules = {35}
        elif not rules and self.is_empty_range(node, ty):
            rules.add(29)
        if in_slice and node.high is None:
            rules.add(33)
        self.refuse(node, rules)
        return Head(("range",) + self.ends(node, ty), [], node.at)

    @staticmethod
    def is_empty_range(node, ty):
        if node.high is None:
            return False
        if node.low is None:
            return not node.closed and node.high.value == numbers_of(ty)[0][0]
        return node.low.value > node.high.value or (not node.closed and node.low.value == node.high.value)

    @staticmethod
    def ends(node, ty):
        """The least and the greatest number of a range."""
        ranges = numbers_of(ty)
        low = ranges[0][0] if node.low is None else node.low.value
        if node.high is None:
            return low, ranges[-1][1]
        if node.closed:
            return low, node.high.value
        before = node.high.value - 1
        return low, 0xD7FF if ty == ("char",) and before == 0xDFFF else before


def check_match(declarations, number, names=False):
    """The match of a function without faults, with the names of its patterns where they are asked for; its first fault is
    raised."""
    function = declarations.items[number].kind
    ty = declarations.type_of(function.parameter)
    if function.star is not None:
        if ty[0] != "point":
            raise Fault(34, at=function.star, item=number)
        ty = ty[2]
    arms, differing = [], None
    for place, arm in enumerate(function.arms):
        checker = ArmChecker(declarations, names)
        try:
            checked = checker.visit(arm.pattern, ty, "move")
        except Fault as fault:
            raise Fault(fault.rule, fault.at, number, place)
        for at, sets in checker.alternatives_of:
            if differing is None and any(one != sets[0] for one in sets):
                differing = Fault(31, at, number, place)
        arms.append(CheckedArm(arm.pattern.at, checked, arm.guarded, checker.offsets, checker.parents))
    if differing is not None:
        raise differing
    return CheckedMatch(ty, function.star is None, arms)
