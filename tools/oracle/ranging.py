"""Sources made by chance for overlaps: matches with many ranges that touch, in nested alternatives, behind references, in
rows from the front and from the back, beside places that no value or not every value meets.

A type is `("int", kind)`, `("char",)`, `("bool",)`, `("tuple", parts)`, `("point", mutable, type)`, `("slice", item)`,
`("array", item, length)`, `("option", type)`, `("result", one, other)`, `("never",)` or the name of a declaration.
"""
import random

from declarations import Options
from generating import edges

DECLARATIONS = {
    "S": "struct S(u8,bool);",
    "N": "struct N{low:i16,high:char}",
    "E": "enum E{A(u8),B(u8,u8),C{x:usize},D}",
    "M": "#[non_exhaustive] enum M{A(char),B}",
    "H": "enum H{A(u8,!),B(u8)}",
    "O": "enum O{}",
}
BYTE, SHORT, SIZE, CHAR = ("int", "u8"), ("int", "i16"), ("int", "usize"), ("char",)
FORMS = {
    "S": [("S(%s,%s)", [BYTE, ("bool",)])],
    "N": [("N{low:%s,high:%s}", [SHORT, CHAR]), ("N{high:%s,..}", [CHAR]), ("N{high:%s,low:%s}", [CHAR, SHORT])],
    "E": [("E::A(%s)", [BYTE]), ("E::B(%s,%s)", [BYTE, BYTE]), ("E::C{x:%s}", [SIZE]), ("E::D", [])],
    "M": [("M::A(%s)", [CHAR]), ("M::B", [])],
    "H": [("H::A(%s,_)", [BYTE]), ("H::B(%s)", [BYTE])],
    "O": [],
}
KINDS = ["u8", "u8", "u8", "i8", "u16", "i64", "u128", "usize", "usize", "isize", "isize"]
CHARACTERS = [0, 0x61, 0x6D, 0x7A, 0xD7FE, 0xD7FF, 0xE000, 0xE001, 0x10FFFE, 0x10FFFF]


class RangeSource:
    def __init__(self, rng, options):
        self.rng, self.options = rng, options
        self.points = {}
        self.used = []
        self.fresh = 0

    def chance(self, part):
        return self.rng.random() < part

    # Types.
    def type(self, depth):
        rng = self.rng
        number = ("int", rng.choice(KINDS)) if self.chance(0.8) else ("char",)
        if depth == 0 or self.chance(0.15):
            return rng.choice([number, number, number, number, ("bool",), rng.choice(list(FORMS))])
        kind = rng.randrange(8)
        if kind in (0, 1):
            return ("tuple", [self.type(depth - 1) for _ in range(rng.choice([1, 2, 2, 3]))])
        if kind == 2:
            return ("point", self.chance(0.3), self.type(depth - 1))
        if kind == 3:
            return ("point", self.chance(0.2), ("slice", self.type(depth - 2 if depth > 1 else 0)))
        if kind == 4:
            return ("array", number, rng.choice([1, 2, 2, 3, 3, 4, 4_000_000_000]))
        if kind == 5:
            return ("option", self.type(depth - 1))
        if kind == 6:
            return ("result", self.type(depth - 1), rng.choice([("never",), self.type(0)]))
        return ("tuple", [number, rng.choice([("bool",), ("never",), number])])

    def written(self, ty):
        if isinstance(ty, str):
            self.used.append(ty)
            return ty
        kind = ty[0]
        if kind in ("bool", "char"):
            return kind
        if kind == "int":
            return ty[1]
        if kind == "never":
            return "!"
        if kind == "tuple":
            return "(" + "".join(self.written(part) + "," for part in ty[1]) + ")"
        if kind == "point":
            return ("&mut " if ty[1] else "&") + self.written(ty[2])
        if kind == "slice":
            return "[" + self.written(ty[1]) + "]"
        if kind == "array":
            return f"[{self.written(ty[1])};{ty[2]}]"
        if kind == "option":
            return f"Option<{self.written(ty[1])}>"
        return f"Result<{self.written(ty[1])},{self.written(ty[2])}>"

    # Numbers.
    def of_type(self, ty):
        """A few numbers of a type, ascending, the same ones in all ranges of a function."""
        if ty not in self.points:
            if ty == ("char",):
                pool = CHARACTERS
            else:
                low, high = edges(ty[1], self.options.width)
                pool = [n for n in (low, low + 1, 0, 1, 5, 9, 10, 100, high - 1, high) if low <= n <= high]
            self.points[ty] = sorted(self.rng.sample(sorted(set(pool)), self.rng.choice([3, 4, 5])))
        return self.points[ty]

    @staticmethod
    def after(ty, number):
        return 0xE000 if ty == ("char",) and number == 0xD7FF else number + 1

    def one(self, ty, number):
        if ty == ("char",):
            return "'" + chr(number) + "'" if 0x61 <= number <= 0x7A else "'\\u{%x}'" % number
        return str(number)

    def range(self, ty):
        points = self.of_type(ty)
        greatest = 0x10FFFF if ty == ("char",) else edges(ty[1], self.options.width)[1]
        begin = self.rng.randrange(len(points) - 1)
        end = min(begin + self.rng.choice([0, 1, 1, 1, 1, 1, 2]), len(points) - 1)
        low, high = points[begin], points[end]
        form = self.rng.randrange(9)
        if form == 0:
            return self.one(ty, low) + ".."
        if form == 1:
            return "..=" + self.one(ty, high)
        if form == 2 and high < greatest:
            return self.one(ty, low) + ".." + self.one(ty, self.after(ty, high))
        if form == 3 and high < greatest:
            return ".." + self.one(ty, self.after(ty, high))
        return self.one(ty, low) + "..=" + self.one(ty, high)

    # Patterns.
    def pattern(self, ty, depth, moved=True, binds=False):
        """A pattern of that type; `moved` where no reference was gone through, `binds` where no alternatives are around."""
        rng = self.rng
        if self.chance(0.12):
            return "_"
        if depth and self.chance(0.22):
            count = rng.choice([1, 2, 2, 2, 3])
            return "(" + "|".join(self.pattern(ty, depth - 1, moved, binds and count == 1) for _ in range(count)) + ")"
        if binds and self.chance(0.1):
            self.fresh += 1
            return f"v{self.fresh} @ " + self.pattern(ty, depth, moved, True)
        if isinstance(ty, str):
            return self.form(ty, depth, moved, binds)
        kind = ty[0]
        if kind in ("int", "char"):
            return self.range(ty)
        if kind == "bool":
            return rng.choice(["true", "false"])
        if kind == "never":
            return "_"
        if kind == "point":
            return self.at_reference(ty, depth, moved, binds)
        if kind in ("slice", "array"):
            return self.row(ty, depth, moved, binds)
        if kind == "tuple":
            parts = [self.pattern(part, depth, moved, binds) for part in ty[1]]
            if self.chance(0.1):
                parts[rng.randrange(len(parts)) :] = [".."]
            return "(" + "".join(part + "," for part in parts) + ")"
        if kind == "option":
            return "None" if self.chance(0.2) else "Some(" + self.pattern(ty[1], depth, moved, binds) + ")"
        which = rng.choice([0, 0, 1])
        return ("Ok(", "Err(")[which] + self.pattern(ty[1 + which], depth, moved, binds) + ")"

    def at_reference(self, ty, depth, moved, binds):
        if (moved or self.options.edition == 2021) and self.chance(0.4):
            inner = self.pattern(ty[2], depth, True, binds)
            may_be_range = isinstance(ty[2], tuple) and ty[2][0] in ("int", "char", "point")
            if may_be_range and not inner.startswith(("(", "_", "&")):
                inner = "(" + inner + ")"
            return ("&mut " if ty[1] else "&") + inner
        return self.pattern(ty[2], depth, False, binds)

    def form(self, name, depth, moved, binds):
        if not FORMS[name]:
            return "_"
        text, types = self.rng.choice(FORMS[name])
        return text % tuple(self.pattern(ty, depth, moved, binds) for ty in types)

    def row(self, ty, depth, moved, binds):
        rng = self.rng
        if ty[0] == "array" and ty[2] < 5 and self.chance(0.5):
            counts, rest = (ty[2], 0), []
        else:
            longest = min(ty[2], 3) if ty[0] == "array" else 2
            front = rng.randrange(longest + 1)
            counts, rest = (front, rng.randrange(longest - front + 1)), [".."]
            if ty[0] == "slice" and self.chance(0.3):
                rest = []
        sides = [[self.pattern(ty[1], depth, moved, binds) for _ in range(count)] for count in counts]
        # An open range by itself is refused as an item.
        front, back = [["(" + item + ")" if item.endswith("..") else item for item in side] for side in sides]
        return "[" + ",".join(front + rest + back) + "]"

    def function(self, number):
        self.points = {}
        ty = self.type(self.rng.choice([0, 1, 1, 2, 2, 3]))
        star = "*" if isinstance(ty, tuple) and ty[0] == "point" and self.chance(0.4) else ""
        matched = ty[2] if star else ty
        arms = []
        for _ in range(self.rng.choice([1, 2, 3, 4, 4, 5, 6])):
            self.fresh = 0
            depth = self.rng.choice([0, 1, 1, 2])
            if self.chance(0.2):
                pattern = "|".join(self.pattern(matched, depth) for _ in range(self.rng.choice([2, 3])))
            else:
                pattern = self.pattern(matched, depth, binds=True)
            arms.append(pattern + self.rng.choice([" "] * 4 + [" if g() "]) + "=>0,")
        return f"fn f{number}(x:{self.written(ty)}){{match {star}x{{{''.join(arms)}_=>1}}}}"

    def text(self):
        functions = [self.function(number) for number in range(self.rng.choice([1, 2, 3]))]
        declared = [DECLARATIONS[name] for name in DECLARATIONS if name in self.used]
        return "".join(line + "\n" for line in declared + functions)


def ranges_of(seed, number, options=Options()):
    """The source with that number of those that a seed gives."""
    return RangeSource(random.Random(f"{seed}/{number}/ranges"), options).text()
