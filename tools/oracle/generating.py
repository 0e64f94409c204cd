"""Sources made by chance: a few declarations, and functions whose patterns mostly suit their types.

`slip` of a source is the part of its choices that go wrong. White space, comments and other faults come from
spoiling.py.

A type is `("bool",)`, `("char",)`, `("int", kind)`, `("str",)`, `("never",)`, `("opaque", text)`, `("tuple", parts)`,
`("point", mutable, type)`, `("slice", item)`, `("array", item, length)`, `("option", type)`, `("result", one, other)`
or `("declared", number)`.
"""
import random

from declarations import Options
from spoiling import spoiled

KINDS = ["u8", "i8", "u16", "i16", "u32", "i32", "u64", "i64", "u128", "i128", "usize", "isize"]
EDGES = {kind + str(bits): ((0, 2**bits - 1) if kind == "u" else (-(2 ** (bits - 1)), 2 ** (bits - 1) - 1))
         for kind in "ui" for bits in (8, 16, 32, 64, 128)}
CHARS = ["'a'", "'b'", "'c'", "'z'", "'é'", r"'\0'", r"'\n'",
         r"'\''", r"'\\'", r"'\u{d7ff}'", r"'\u{e000}'", r"'\u{10ffff}'"]
TEXTS = ['""', '"a"', '"b"', '"ab"', r'"\n"', 'r"a"', '"é"', r'"\""', r'"\x61"']
STRANGE = ["1.5", 'b"a"', "a::b::C", "1x", "&_", "&mut _", "ref q", "mut q", '"s"', "()", "[..]", "Nothing"]
UNIT, TUPLE, BRACE = "unit", "tuple", "brace"


def edges(kind, width):
    """The least and greatest number of an integer type that may be written."""
    bits = width or 64
    return {"usize": (0, 2**bits - 1), "isize": (-(2 ** (bits - 1)), 2 ** (bits - 1) - 1)}.get(kind) or EDGES[kind]


class Source:
    def __init__(self, rng, options):
        self.rng, self.options = rng, options
        self.declared = []
        self.imports = {}
        self.lines = []
        self.fresh = 0
        self.slip = rng.choice([0, 0, 0.01, 0.04, 0.1])

    def chance(self, part):
        return self.rng.random() < part

    # Types.
    def type(self, depth, by_value=True):
        rng = self.rng
        simple = [("bool",), ("bool",), ("char",), ("int", rng.choice(KINDS)), ("int", "u8"), ("never",),
                  ("opaque", rng.choice(["String", "f64", "Vec<u8>", "Box<str>"]))]
        if depth == 0 or self.chance(0.3):
            if self.declared and self.chance(0.5):
                return ("declared", rng.randrange(len(self.declared)))
            return rng.choice(simple)
        kind = rng.randrange(9)
        if kind == 0:
            return ("tuple", [self.type(depth - 1) for _ in range(rng.choice([0, 1, 2, 2, 3]))])
        if kind == 1:
            return ("option", self.type(depth - 1))
        if kind == 2:
            return ("result", self.type(depth - 1), self.type(depth - 1))
        if kind == 3:
            return ("point", self.chance(0.3), self.type(depth - 1))
        if kind == 4:
            return ("point", self.chance(0.2), ("str",))
        if kind in (5, 6):
            return ("point", self.chance(0.2), ("slice", self.type(depth - 1)))
        if kind == 7:
            return ("array", self.type(depth - 1), rng.choice([0, 1, 2, 3]))
        return ("point", False, ("point", self.chance(0.2), self.type(depth - 1)))

    def written(self, ty):
        kind = ty[0]
        if kind in ("bool", "char", "str"):
            return kind
        if kind in ("int", "opaque"):
            return ty[1]
        if kind == "never":
            return "!"
        if kind == "tuple":
            return "(" + ",".join(self.written(part) for part in ty[1]) + (",)" if len(ty[1]) == 1 else ")")
        if kind == "point":
            return ("&mut " if ty[1] else "&") + self.written(ty[2])
        if kind == "slice":
            return "[" + self.written(ty[1]) + "]"
        if kind == "array":
            return "[" + self.written(ty[1]) + ";" + str(ty[2]) + "]"
        if kind == "option":
            return "Option<" + self.written(ty[1]) + ">"
        if kind == "result":
            return "Result<" + self.written(ty[1]) + "," + self.written(ty[2]) + ">"
        return self.declared[ty[1]][0]

    # Declarations.
    def declare(self):
        rng, number = self.rng, len(self.declared)
        name = rng.choice(["E", "S", "T"]) + str(number)
        if self.chance(0.65):
            count = rng.choice([0, 1, 2, 2, 3, 4])
            variants = [(rng.choice("ABCDV") + str(i), *self.form()) for i in range(count)]
            if self.chance(0.1) and variants:
                variants[0] = ("r#in", *variants[0][1:])
            entry = (name, "enum", variants)
            body = ",".join(variant + self.written_form(kind, fields) for variant, kind, fields in variants)
            mark = "#[non_exhaustive] " if self.chance(0.15) else ""
            self.lines.append(f"{mark}enum {name}{{{body}}}")
        else:
            kind, fields = self.form()
            entry = (name, "struct", [(name, kind, fields)])
            self.lines.append(f"struct {name}{self.written_form(kind, fields)}" + ("" if kind == BRACE else ";"))
        self.declared.append(entry)
        if entry[1] == "enum" and entry[2] and self.chance(0.3):
            self.import_from(entry)

    def form(self):
        kind = self.rng.choice([UNIT, UNIT, TUPLE, TUPLE, BRACE])
        count = 0 if kind == UNIT else self.rng.choice([0, 1, 1, 2, 2, 3])
        labels = [("abcde"[i] if kind == BRACE else str(i)) for i in range(count)]
        return kind, [(label, self.type(1)) for label in labels]

    def written_form(self, kind, fields):
        if kind == UNIT:
            return ""
        if kind == TUPLE:
            return "(" + ",".join(self.written(ty) for _, ty in fields) + ")"
        return "{" + ",".join(label + ":" + self.written(ty) for label, ty in fields) + "}"

    def import_from(self, entry):
        name, _, variants = entry
        if self.chance(0.5):
            self.lines.append(f"use {name}::*;")
            some = variants
        else:
            some = [variant for variant in variants if self.chance(0.6)]
            self.lines.append(f"use {name}::{{" + ",".join(variant[0] for variant in some) + "};")
        self.imports[name] = {variant[0] for variant in some}

    def path(self, owner, variant):
        """How a variant is written: by its enum, or alone where it is imported."""
        if variant in self.imports.get(owner, ()) and self.chance(0.6):
            return variant
        return owner + "::" + variant

    # Patterns.
    def name(self):
        if self.fresh and self.chance(self.slip):
            return "v" + str(self.rng.randint(1, self.fresh))
        if self.chance(self.slip):
            declared = [variant[0] for entry in self.declared for variant in entry[2]]
            return self.rng.choice(["None", "Some", "r#in"] + declared)
        self.fresh += 1
        return "v" + str(self.fresh)

    def pattern(self, ty, mode, depth, binds):
        """A pattern, mostly of that type; `binds` where it may bind."""
        rng = self.rng
        if self.chance(self.slip):
            return self.pattern(self.type(2), mode, min(depth, 1), binds)
        if self.chance(0.14) and depth:
            return "(" + self.alternatives(ty, mode, depth - 1, binds) + ")"
        if depth <= 0 or self.chance(0.18):
            return self.wild(mode, binds)
        if binds and self.chance(0.1):
            return self.written_mode(mode) + self.name() + " @ " + self.pattern(ty, mode, depth - 1, binds)
        if ty[0] == "point":
            return self.at_reference(ty, mode, depth, binds)
        if self.chance(self.slip) or (ty[0] in ("never", "opaque") and self.chance(0.02)):
            return rng.choice(STRANGE)
        return self.of_kind(ty, mode, depth, binds)

    def written_mode(self, mode):
        taken = (mode == "move" and self.chance(0.25)) or self.chance(self.slip)
        if taken or self.options.edition == 2021 and self.chance(0.15):
            return self.rng.choice(["ref ", "mut ", "ref mut "])
        return ""

    def wild(self, mode, binds):
        return self.written_mode(mode) + self.name() if binds and self.chance(0.35) else "_"

    def alternatives(self, ty, mode, depth, binds):
        """Two alternatives or more, or one."""
        count = self.rng.choice([1, 2, 2, 2, 3])
        if binds and self.chance(0.2):
            name = self.name()
            return "|".join(f"{name} @ {self.pattern(ty, mode, depth, False)}" for _ in range(count))
        binds = binds and (count == 1 or self.chance(0.05))
        return "|".join(self.pattern(ty, mode, depth, binds) for _ in range(count))

    def at_reference(self, ty, mode, depth, binds):
        if ty[2] == ("str",) and self.chance(0.8):
            return self.rng.choice(TEXTS)
        if (mode == "move" or self.options.edition == 2021) and self.chance(0.3):
            inner = self.pattern(ty[2], "move", depth - 1, binds)
            if inner.startswith(("mut ", "..")) or ".." in inner and inner[0] not in "([{":
                inner = "(" + inner + ")"
            return ("&mut " if ty[1] != self.chance(self.slip) else "&") + inner
        while ty[0] == "point" and ty[2] != ("str",):
            mode = "ref" if not ty[1] else "ref mut" if mode == "move" else mode
            ty = ty[2]
        return self.wild(mode, binds) if ty[0] == "point" else self.of_kind(ty, mode, depth, binds)

    def of_kind(self, ty, mode, depth, binds):
        kind = ty[0]
        if kind == "bool":
            return self.rng.choice(["true", "false"])
        if kind in ("int", "char"):
            return self.number(ty)
        if kind == "tuple":
            return self.round(list(ty[1]), mode, depth, binds)
        if kind in ("slice", "array"):
            return self.square(ty, mode, depth, binds)
        if kind == "option":
            word = self.rng.choice(["None", "Some", "Some"])
            return word + ("" if word == "None" else "(" + self.inside(ty[1], mode, depth, binds) + ")")
        if kind == "result":
            which = self.rng.choice([0, 1])
            return ("Ok", "Err")[which] + "(" + self.inside(ty[1 + which], mode, depth, binds) + ")"
        if kind == "declared":
            return self.of_declared(ty, mode, depth, binds)
        return self.wild(mode, binds)

    def inside(self, ty, mode, depth, binds):
        if self.chance(0.1):
            return self.alternatives(ty, mode, depth - 1, binds)
        return self.pattern(ty, mode, depth - 1, binds)

    def one_number(self, ty):
        if ty[0] == "char":
            return self.rng.choice(CHARS)
        low, high = edges(ty[1], self.options.width)
        near = [low, low + 1, high, high - 1, 0, 1, 2, 5, 10, 100]
        if self.chance(self.slip):
            near = [low - 1, high + 1]
        number = self.rng.choice([n for n in near if low - 1 <= n <= high + 1])
        if ty[1] == "u8" and 97 <= number <= 122:
            return f"b'{chr(number)}'"
        suffix = ty[1] if self.chance(0.1) else "u8" if self.chance(self.slip) else ""
        return str(number) + suffix

    def number(self, ty):
        if self.chance(0.5):
            return self.one_number(ty)
        one, other = self.one_number(ty), self.one_number(ty)
        if self.order(one) > self.order(other) and not self.chance(self.slip * 3):
            one, other = other, one
        form = self.rng.randrange(5)
        if self.chance(self.slip / 2):
            other = self.rng.choice(["A", "2.0", "5q", "'q'", "u8::MAX", "300"])
        if form == 0:
            return f"{one}.."
        if form == 1:
            return f"..={one}"
        if form == 2 and (one != other or self.chance(self.slip * 3)):
            return f"{one}..{other}"
        endless = ty == ("int", "isize") and self.options.width is None
        above = endless or self.order(one) > self.order(self.least(ty))
        if form == 3 and (above or self.chance(self.slip * 3)):
            return f"..{one}"
        return f"{one}..={other}"

    def least(self, ty):
        return r"'\0'" if ty[0] == "char" else str(edges(ty[1], self.options.width)[0])

    @staticmethod
    def order(text):
        """A number or character as a number."""
        if text[0] == "b":
            return ord(text[2])
        if text[0] == "'":
            inner = text[1:-1]
            if inner.startswith("\\u"):
                return int(inner[3:-1], 16)
            return {"\\0": 0, "\\n": 10, "\\'": 39, "\\\\": 92}.get(inner, ord(inner[0]))
        digits = text.split("u")[0].split("i")[0]
        return int(digits)

    def round(self, types, mode, depth, binds):
        parts = [self.inside(ty, mode, depth, binds) for ty in types]
        parts = self.with_rest(parts, 0.2)
        if self.chance(self.slip):
            parts.append("_")
        return "(" + ",".join(parts) + (",)" if len(parts) == 1 and parts[0] != ".." else ")")

    def with_rest(self, parts, part):
        if not self.chance(part):
            return parts
        begin = self.rng.randrange(len(parts) + 1)
        end = self.rng.randrange(begin, len(parts) + 1)
        found = parts[:begin] + [".."] + parts[end:]
        return found + [".."] if self.chance(self.slip) else found

    def square(self, ty, mode, depth, binds):
        if ty[0] == "array":
            parts = [self.inside(ty[1], mode, depth, binds) for _ in range(ty[2])]
            parts = self.with_rest(parts, 0.4)
        else:
            parts = [self.inside(ty[1], mode, depth, binds) for _ in range(self.rng.choice([0, 1, 1, 2, 2, 3]))]
            parts = self.with_rest(parts, 0.5)
        for place, part in enumerate(parts):
            if part == ".." and binds and self.chance(0.3):
                parts[place] = self.written_mode(mode) + self.name() + " @ .."
            elif part.endswith("..") and part != ".." and not part.endswith("@ ..") and not self.chance(self.slip * 4):
                parts[place] = "(" + part + ")"
        return "[" + ",".join(parts) + "]"

    def of_declared(self, ty, mode, depth, binds):
        name, kind, variants = self.declared[ty[1]]
        if not variants:
            return self.wild(mode, binds)
        variant, form, fields = self.rng.choice(variants)
        path = name if kind == "struct" else self.path(name, variant)
        if self.chance(self.slip):
            path = self.rng.choice([path + "::A", "Zz", "Zz::A", "a::" + path, "Self", variant, name + "::Zz"])
        if self.chance(self.slip):
            form = self.rng.choice([UNIT, TUPLE, BRACE])
        if form == UNIT:
            return path
        if form == TUPLE:
            parts = [self.inside(field, mode, depth, binds) for _, field in fields]
            return path + "(" + ",".join(self.with_rest(parts, 0.25)) + ")"
        chosen = [field for field in fields if self.chance(0.7)]
        rest = len(chosen) < len(fields) and not self.chance(self.slip * 3) or self.chance(0.1)
        self.rng.shuffle(chosen)
        written = []
        for label, field in chosen:
            short = binds and label.isalpha() and self.chance(0.1)
            if short:
                written.append(self.written_mode(mode) + label)
            else:
                written.append(label + ":" + self.inside(field, mode, depth, binds))
        if self.chance(self.slip):
            written.append(self.rng.choice(written + ["q", "0:_", "a:_", "b"]))
        return path + "{" + ",".join(written + [".."] * rest) + "}"

    # Functions.
    def function(self, number):
        ty = self.type(self.rng.choice([1, 2, 2, 3]))
        star = "*" if (ty[0] == "point") != self.chance(0.6 if ty[0] == "point" else self.slip / 2) else ""
        matched = ty[2] if star and ty[0] == "point" else ty
        arms = "".join(self.arm(matched) for _ in range(self.rng.choice([0, 1, 2, 2, 3, 3, 4, 5])))
        if self.chance(0.3):
            arms += "_=>0"
        before = self.rng.choice([""] * 6 + ["pub ", "#[inline] ", "pub(crate) "])
        behind = self.rng.choice(["", "", "", "->u8", "->[u8;{3}]"])
        mutable = self.rng.choice(["", "", "", "mut "])
        self.lines.append(f"{before}fn f{number}({mutable}x:{self.written(ty)}){behind}{{match {star}x{{{arms}}}}}")

    def arm(self, ty):
        self.fresh = 0
        depth = self.rng.choice([1, 2, 3])
        make = self.alternatives if self.chance(0.2) else self.pattern
        whole = make(ty, "move", depth, True)
        before = self.rng.choice([""] * 8 + ["|", "#[a] "])
        guard = self.rng.choice([" "] * 4 + [" if g() "])
        return f"{before}{whole}{guard}=>" + self.rng.choice(["0,", "0,", "0,", "{}", "{1},", "f(1,2),"])

    def text(self):
        for _ in range(self.rng.choice([0, 1, 2, 3])):
            self.declare()
        for number in range(self.rng.choice([1, 2, 3])):
            self.function(number)
        return spoiled(self.rng, self.lines)


def source_of(seed, number, options=Options()):
    """The source with that number of those that a seed gives, whose numbers and modes suit the options."""
    return Source(random.Random(f"{seed}/{number}"), options).text()
