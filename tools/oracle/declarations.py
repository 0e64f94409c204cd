"""Names, types and declarations: what they mean, and the rules 10 to 19 and 36.

A type is a tuple: `("bool",)`, `("char",)`, `("int", kind)`, of `usize` and `isize` with a width `("int", kind, bits)`,
`("str",)`, `("never",)`, `("opaque", name, arguments)`,
`("tuple", parts)`, `("point", mutable, type)`, `("slice", type)`, `("array", type, length)` or
`("named", owner, arguments)`, the owner being the number of an item, `Option` or `Result`.
"""
from dataclasses import dataclass
from typing import Optional

from fault import Fault
import syntax as s

SIZES = {kind + str(bits): (kind, bits) for kind in "ui" for bits in (8, 16, 32, 64, 128)}
INTEGERS = frozenset(SIZES) | {"usize", "isize"}
ARGUMENTS = {"Option": 1, "Result": 2, "Box": 1, "Vec": 1, "Rc": 1, "Arc": 1, "String": 0, "f32": 0, "f64": 0}
OPAQUE = frozenset(["Box", "Vec", "Rc", "Arc", "String", "f32", "f64"])
BEHIND = frozenset(["Box", "Rc", "Arc"])
GREATEST_LENGTH = 4_294_967_295
WIDTHS = (16, 32, 64)
EDITIONS = (2021, 2024)


@dataclass(frozen=True)
class Options:
    """What the words behind a command say: the bits of `usize` and `isize`, None where they have no end; the edition."""

    width: Optional[int] = None
    edition: int = 2024

    def words(self):
        """The words that say so."""
        width = [] if self.width is None else ["--width", str(self.width)]
        return width + ([] if self.edition == 2024 else ["--edition", str(self.edition)])


def numbers_of(ty):
    """The ranges of an integer or character type, `None` for an end that there is not."""
    if ty == ("char",):
        return [(0, 0xD7FF), (0xE000, 0x10FFFF)]
    if ty == ("int", "usize"):
        return [(0, None)]
    if ty == ("int", "isize"):
        return [(None, None)]
    sign, bits = (ty[1][0], ty[2]) if len(ty) == 3 else SIZES[ty[1]]
    return [(0, 2**bits - 1)] if sign == "u" else [(-(2 ** (bits - 1)), 2 ** (bits - 1) - 1)]


def literals_of(ty):
    """The least and greatest number that may be written for an integer or character type, and its ranges."""
    if ty == ("int", "usize"):
        return [(0, 2**64 - 1)]
    if ty == ("int", "isize"):
        return [(-(2**63), 2**63 - 1)]
    return numbers_of(ty)


@dataclass
class VariantOf:
    """A variant of a type, or a struct, which has the one variant 0. `labels` are its fields as patterns name them."""

    name: str
    kind: str
    labels: list
    types: list


@dataclass
class Found:
    """What a path in a pattern finds: a variant of an owner; the owner of a struct has `variant` 0 and `is_struct`."""

    owner: object
    variant: int
    kind: str
    is_struct: bool


TWICE = "twice"


def labels(form):
    return [field.name if form.kind == "brace" else str(i) for i, field in enumerate(form.fields)]


class Declarations:
    """The declarations of a file without faults on the rules 10 to 19 and 36, unless `fault` is called on others."""

    def __init__(self, items, options=Options()):
        self.items = items
        self.options = options
        self.first = {}
        for number, item in enumerate(items):
            if isinstance(item.kind, (s.Enum, s.Struct)):
                self.first.setdefault(item.kind.name, number)
        self.known = {}

    # Types.
    def name_is_known(self, name):
        return name in self.first or name in INTEGERS or name in ARGUMENTS or name in ("bool", "char", "str")

    def type_rules(self, written, behind=False):
        """The rules that a written type breaks by itself; `behind` where it may be unsized."""
        rules = set()
        if isinstance(written, s.NamedType):
            name = written.name
            if not self.name_is_known(name):
                return {13}
            if name == "str" and name not in self.first and not behind:
                rules.add(14)
            wanted = 0 if name in self.first else ARGUMENTS.get(name, 0)
            if len(written.arguments) != wanted:
                rules.add(17)
        if isinstance(written, s.SliceType) and not behind:
            rules.add(14)
        if isinstance(written, s.ArrayType):
            if written.length is None or written.length > GREATEST_LENGTH or written.suffix not in ("", "usize"):
                rules.add(16)
        return rules

    def parts_of(self, written):
        """The written types directly within a written type, each with whether it may be unsized there."""
        if isinstance(written, s.TupleType):
            return [(part, False) for part in written.parts]
        if isinstance(written, s.Reference):
            return [(written.inner, True)]
        if isinstance(written, (s.SliceType, s.ArrayType)):
            return [(written.item, False)]
        if isinstance(written, s.NamedType):
            behind = written.name in BEHIND and written.name not in self.first
            return [(argument, behind) for argument in written.arguments]
        return []

    def all_type_rules(self, written, behind=False):
        rules = set(self.type_rules(written, behind))
        for part, part_behind in self.parts_of(written):
            rules |= self.all_type_rules(part, part_behind)
        return rules

    def type_of(self, written, behind=False):
        """The type that is meant. What breaks a rule by itself is an opaque type."""
        if self.type_rules(written, behind):
            return ("opaque", "", ())
        inner = tuple(self.type_of(part, part_behind) for part, part_behind in self.parts_of(written))
        if isinstance(written, s.Never):
            return ("never",)
        if isinstance(written, s.TupleType):
            return ("tuple", inner)
        if isinstance(written, s.Reference):
            return ("point", written.mutable, inner[0])
        if isinstance(written, s.SliceType):
            return ("slice", inner[0])
        if isinstance(written, s.ArrayType):
            return ("array", inner[0], written.length)
        if written.name in self.first:
            return ("named", self.first[written.name], ())
        if written.name in INTEGERS:
            return self.integer(written.name)
        if written.name in OPAQUE:
            return ("opaque", written.name, inner)
        if written.name in ("Option", "Result"):
            return ("named", written.name, inner)
        return (written.name,)

    def integer(self, kind):
        """The integer type of that name."""
        width = self.options.width if kind in ("usize", "isize") else None
        return ("int", kind) if width is None else ("int", kind, width)

    def is_enum(self, owner):
        return owner in ("Option", "Result") or isinstance(self.items[owner].kind, s.Enum)

    def is_marked(self, owner):
        return not isinstance(owner, str) and self.is_enum(owner) and "non_exhaustive" in self.items[owner].attributes

    def variants(self, ty):
        """The variants of a declared type, of `Option` or of `Result`; a struct has one."""
        if ty in self.known:
            return self.known[ty]
        _, owner, arguments = ty
        if owner == "Option":
            found = [VariantOf("None", "unit", [], []), VariantOf("Some", "tuple", ["0"], [arguments[0]])]
        elif owner == "Result":
            found = [VariantOf("Ok", "tuple", ["0"], [arguments[0]]), VariantOf("Err", "tuple", ["0"], [arguments[1]])]
        else:
            kind = self.items[owner].kind
            named = kind.variants if isinstance(kind, s.Enum) else [kind]
            forms = [(it.name, it.form) for it in named]
            found = [
                VariantOf(name, form.kind, labels(form), [self.type_of(field.type) for field in form.fields])
                for name, form in forms
            ]
        self.known[ty] = found
        return found

    def is_bare(self, ty):
        """Whether a type is without constructors."""
        if ty[0] == "never":
            return True
        return ty[0] == "named" and self.is_enum(ty[1]) and not self.is_marked(ty[1]) and not self.variants(ty)

    def has_value(self, ty, sure):
        """Whether a type has a value at a place of that validity, where no declared type is endless."""
        if not sure:
            return True
        if self.is_bare(ty):
            return False
        if ty[0] == "tuple":
            return all(self.has_value(part, True) for part in ty[1])
        if ty[0] == "array":
            return ty[2] == 0 or self.has_value(ty[1], True)
        if ty[0] == "named":
            numbers = range(len(self.variants(ty)))
            return self.is_marked(ty[1]) or any(self.variant_has_value(ty, number, True) for number in numbers)
        return True

    def variant_has_value(self, ty, number, sure):
        return all(self.has_value(part, sure) for part in self.variants(ty)[number].types)

    # Names in patterns.
    def variant_named(self, owner, name):
        """The variant of that name of an enum, or None."""
        if owner in ("Option", "Result"):
            built_in = {"Option": [("None", "unit"), ("Some", "tuple")], "Result": [("Ok", "tuple"), ("Err", "tuple")]}
            forms = built_in[owner]
        else:
            forms = [(it.name, it.form.kind) for it in self.items[owner].kind.variants]
        for number, (variant, kind) in enumerate(forms):
            if variant == name:
                return Found(owner, number, kind, False)
        return None

    def enum_named(self, name):
        """The owner that a name before `::` means, or None where it is no enum."""
        if name in self.first:
            return self.first[name] if self.is_enum(self.first[name]) else None
        return name if name in ("Option", "Result") else None

    def imports(self, number):
        """The variants that an item imports by name."""
        kind = self.items[number].kind
        if not isinstance(kind, s.Use) or kind.names is None:
            return []
        owner = self.enum_named(kind.owner)
        if owner is None:
            return []
        return [(name, self.variant_named(owner, name)) for name in kind.names]

    def find_name(self, name):
        """What a name alone finds: a Found, None, or TWICE."""
        for number, item in enumerate(self.items):
            if isinstance(item.kind, s.Struct) and item.kind.name == name:
                return Found(number, 0, item.kind.form.kind, True)
            for imported, found in self.imports(number):
                if imported == name and found is not None:
                    return found
        globbed = []
        for item in self.items:
            if isinstance(item.kind, s.Use) and item.kind.names is None:
                owner = self.enum_named(item.kind.owner)
                found = self.variant_named(owner, name) if owner is not None else None
                if found is not None and found not in globbed:
                    globbed.append(found)
        if globbed:
            return globbed[0] if len(globbed) == 1 else TWICE
        return self.variant_named("Option", name) or self.variant_named("Result", name)

    def find(self, path):
        """What a path of one or two plain names finds."""
        if len(path.names) == 1:
            return self.find_name(path.names[0])
        owner = self.enum_named(path.names[0])
        return None if owner is None else self.variant_named(owner, path.names[1])

    # The rules.
    def fault(self):
        """The first item that breaks a rule, with its least rule; None where none does."""
        endless = self.endless()
        for number, item in enumerate(self.items):
            rules = self.item_rules(number, item, endless)
            if rules:
                return Fault(min(rules), at=item.at, item=number)
        return None

    def item_rules(self, number, item, endless):
        kind = item.kind
        rules = self.name_rules(number)
        rules |= self.attribute_rules(item)
        for written in self.written_types(kind):
            rules |= self.all_type_rules(written)
        if isinstance(kind, s.Enum):
            names = [variant.name for variant in kind.variants]
            if len(set(names)) != len(names):
                rules.add(11)
        if isinstance(kind, (s.Enum, s.Struct)):
            for form in self.forms(kind):
                names = [field.name for field in form.fields if field.name is not None]
                if len(set(names)) != len(names):
                    rules.add(12)
            if number in self.reached_by_value(number):
                rules.add(15)
            if number in endless:
                rules.add(36)
        if isinstance(kind, s.Use):
            rules |= self.use_rules(kind)
        return rules

    @staticmethod
    def forms(kind):
        return [variant.form for variant in kind.variants] if isinstance(kind, s.Enum) else [kind.form]

    def written_types(self, kind):
        if isinstance(kind, s.Function):
            return [kind.parameter]
        if isinstance(kind, s.Use):
            return []
        return [field.type for form in self.forms(kind) for field in form.fields]

    def use_rules(self, kind):
        owner = self.enum_named(kind.owner)
        if owner is None or any(self.variant_named(owner, name) is None for name in kind.names or []):
            return {18}
        return set()

    def names_of(self, number):
        """The names of an item as an enum, a struct or explicit imports, and those as values that functions share."""
        kind = self.items[number].kind
        if isinstance(kind, s.Enum):
            return [kind.name], []
        if isinstance(kind, s.Struct):
            return [kind.name], [kind.name] if kind.form.kind != "brace" else []
        if isinstance(kind, s.Function):
            return [], []
        values = [name for name, found in self.imports(number) if found is not None and found.kind != "brace"]
        return list(kind.names or []), values

    def name_rules(self, number):
        types, values, functions = set(), set(), set()
        for earlier in range(number):
            named, valued = self.names_of(earlier)
            types.update(named)
            values.update(valued)
            if isinstance(self.items[earlier].kind, s.Function):
                functions.add(self.items[earlier].kind.name)
        kind = self.items[number].kind
        if isinstance(kind, s.Function):
            return {10} if kind.name in functions | values else set()
        named, valued = self.names_of(number)
        if len(set(named)) != len(named) or types & set(named) or functions & set(valued):
            return {10}
        return set()

    def attribute_rules(self, item):
        words = [word for word in item.attributes if not (word == "non_exhaustive" and isinstance(item.kind, s.Enum))]
        kind = item.kind
        if isinstance(kind, (s.Enum, s.Struct)):
            for form in self.forms(kind):
                for field in form.fields:
                    words += field.attributes
        if isinstance(kind, s.Enum):
            for variant in kind.variants:
                words += variant.attributes
        if isinstance(kind, s.Function):
            for arm in kind.arms:
                words += arm.attributes
                for node in s.nodes(arm.pattern):
                    if isinstance(node, s.BraceForm):
                        words += [word for field in node.fields for word in field.attributes]
        return {19} if any(word in ("cfg", "cfg_attr", "non_exhaustive") for word in words) else set()

    def reached_by_value(self, number):
        """The declared types that a declared type reaches by value."""
        reached, open_types = set(), [("named", number, ())]
        seen = set()
        while open_types:
            ty = open_types.pop()
            inner = []
            if ty[0] == "tuple":
                inner = list(ty[1])
            elif ty[0] == "array":
                inner = [ty[1]]
            elif ty[0] == "named" and isinstance(ty[1], str):
                inner = list(ty[2])
            elif ty[0] == "named":
                inner = [part for variant in self.variants(ty) for part in variant.types]
            for part in inner:
                if part[0] == "named" and not isinstance(part[1], str):
                    reached.add(part[1])
                if part not in seen:
                    seen.add(part)
                    open_types.append(part)
        return reached

    def endless(self):
        """The declared types that have no finite value at an unsure place."""
        finite = set()

        def is_finite(ty):
            if ty[0] == "tuple":
                return all(is_finite(part) for part in ty[1])
            if ty[0] == "array":
                return ty[2] == 0 or is_finite(ty[1])
            if ty[0] == "point":
                return is_finite(ty[2])
            if ty[0] != "named" or ty[1] == "Option":
                return True
            if ty[1] == "Result":
                return any(is_finite(part) for part in ty[2])
            return ty[1] in finite

        declared = [number for number, item in enumerate(self.items) if isinstance(item.kind, (s.Enum, s.Struct))]
        while True:
            more = set()
            for number in declared:
                ty = ("named", number, ())
                if number not in finite and (
                    self.is_marked(number)
                    or self.is_bare(ty)
                    or any(all(is_finite(part) for part in variant.types) for variant in self.variants(ty))
                ):
                    more.add(number)
            if not more:
                return set(declared) - finite
            finite |= more
