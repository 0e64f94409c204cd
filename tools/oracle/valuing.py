"""Texts of values made by chance: mostly of a type, written in one of the ways that spell them, some of them spoiled."""
from declarations import numbers_of
from reporting import quoted, written
from spoiling import CHARACTERS

STRANGE = ["?opaque", "?later", "?unseen", "?", "()", "(", "_", "1.5", "b\"a\"", "300", "-1", "'a'", "b'a'", "\"a\"", "*\"a\"", "[]",
           "Zz", "a::b::C", "1u8", "true", "?r#later", "&1", "S {}", "self", "'\\u{d800}'", "340282366920938463463374607431768211456"]


class TooDeep(Exception):
    pass


class Chance:
    def __init__(self, rng, declarations, numbers):
        self.rng, self.declarations, self.numbers = rng, declarations, numbers

    def chance(self, part):
        return self.rng.random() < part

    def text(self, ty, sure):
        """A text for a value of the type, or for nothing."""
        for _ in range(20):
            try:
                text = self.value(ty, sure, 6)
                break
            except TooDeep:
                text = self.rng.choice(STRANGE)
        if self.chance(0.08):
            place = self.rng.randrange(len(text) + 1)
            text = text[:place] + self.rng.choice(CHARACTERS) + text[place + self.rng.randrange(2) :]
        return text

    def value(self, ty, sure, depth):
        if depth == 0:
            raise TooDeep
        if self.chance(0.01):
            return self.rng.choice(STRANGE)
        if self.chance(0.04):
            return "(" + self.value(ty, sure, depth - 1) + ")"
        kind = ty[0]
        if kind == "bool":
            return self.rng.choice(["true", "false"])
        if kind in ("int", "char"):
            return self.number(ty)
        if kind == "opaque":
            return "?opaque"
        if kind == "str":
            return "*" + self.string()
        if kind == "never":
            return "?unseen" if not sure or self.chance(0.1) else self.rng.choice(STRANGE)
        if kind == "point":
            if ty[2] == ("str",) and not ty[1] and self.chance(0.8):
                return self.string()
            return ("&mut " if ty[1] else self.rng.choice(["&", "& "])) + self.value(ty[2], False, depth - 1)
        if kind == "tuple":
            return self.round([self.value(part, sure, depth - 1) for part in ty[1]])
        if kind in ("slice", "array"):
            count = ty[2] if kind == "array" else self.rng.choice([0, 1, 1, 2, 2, 3, 4])
            if count > 50:
                raise TooDeep
            if self.chance(0.01):
                count += 1
            return "[" + self.joined([self.value(ty[1], sure, depth - 1) for _ in range(count)]) + "]"
        return self.declared(ty, sure, depth)

    def joined(self, parts):
        return ", ".join(parts) + ("," if parts and self.chance(0.1) else "")

    def round(self, parts):
        return "(" + parts[0] + ",)" if len(parts) == 1 else "(" + self.joined(parts) + ")"

    def string(self):
        return quoted(self.rng.choice(["", "a", "b", "ab", "\n", "é", '"', "c", "\u2028"]), '"')

    def number(self, ty):
        low, high = self.rng.choice(numbers_of(ty))
        near = [n for n in self.numbers if (low is None or low <= n) and (high is None or n <= high)]
        edges = [n for n in (low, high, 0, 1, 2**64, -(2**63) - 1) if n is not None and (low is None or low <= n) and (high is None or n <= high)]
        number = self.rng.choice(near) if near and self.chance(0.8) else self.rng.choice(edges)
        if ty == ("char",):
            return quoted(chr(number), "'")
        if ty[1] == "u8" and self.chance(0.1) and 32 <= number < 127 and number not in (39, 92):
            return f"b'{chr(number)}'"
        if number >= 0 and self.chance(0.1):
            return self.rng.choice([hex, oct, bin])(number)
        return str(number) + (ty[1] if self.chance(0.1) else "u8" if self.chance(0.01) else "")

    def declared(self, ty, sure, depth):
        owner = ty[1]
        variants = self.declarations.variants(ty)
        is_enum = self.declarations.is_enum(owner)
        if self.declarations.is_marked(owner) and self.chance(0.15):
            return "?later"
        if not variants:
            return "?unseen"
        number = self.rng.randrange(len(variants))
        if depth < 3:
            number = min(range(len(variants)), key=lambda k: len(variants[k].types))
        variant = variants[number]
        name = written(variant.name)
        if is_enum and self.chance(0.7):
            name = (owner if isinstance(owner, str) else written(self.declarations.items[owner].kind.name)) + "::" + name
        parts = [self.value(part, sure, depth - 1) for part in variant.types]
        if variant.kind == "unit":
            return name
        if variant.kind == "tuple":
            return name + "(" + self.joined(parts) + ")"
        fields = [written(label) + ": " + part for label, part in zip(variant.labels, parts)]
        self.rng.shuffle(fields)
        if fields and self.chance(0.02):
            fields.append(self.rng.choice(fields)) if self.chance(0.5) else fields.pop()
        return name + " {" + self.joined(fields) + "}"


def numbers_in(match):
    """The numbers near the ends of the ranges in a match's patterns."""
    from patterns import ANY, Alternatives, Naming

    found, work = set(), [arm.pattern for arm in match.arms]
    while work:
        pattern = work.pop()
        if isinstance(pattern, Naming):
            work.append(pattern.pattern)
        elif isinstance(pattern, Alternatives):
            work += pattern.patterns
        elif pattern is not ANY:
            work += pattern.parts
            if pattern.constructor[0] == "range":
                for end in pattern.constructor[1:]:
                    if end is not None:
                        found |= {end - 1, end, end + 1}
    return sorted(found)
