"""Values: what a text spells, which value of a type that is, and its one text.

A value is `("flag", b)`, `("num", n)`, `("text", t)`, `("node", k, parts)`, `("point", mutable, v)`, `("row", items)`, `("thing",)`,
`("later",)` or `("unseen",)`; of a struct or a tuple `k` is 0. What is spelled before its type is looked at has these shapes:
`("flag", b)`, `("char", n)`, `("byte", n)`, `("int", n, suffix)`, `("str", t)`, `("text", t)`, `("opaque",)`, `("later",)`, `("unseen",)`,
`("point", mutable, it)`, `("tuple", parts)`, `("row", items)`, `("form", names, kind, parts)`; a part of a brace form is a pair of
its name and what stands for it.
"""
from declarations import numbers_of
from fault import Fault
from lexing import lex

LEVELS = 64
SYNTAX, TYPE = 40, 41


class Speller:
    """Reads tokens from left to right; `&&` is two marks."""

    def __init__(self, tokens):
        self.tokens = []
        for token in tokens:
            if token.is_mark("&&"):
                self.tokens += [("mark", "&", token)] * 2
            else:
                self.tokens.append((token.kind, token.value, token))
        self.here = 0

    def peek(self):
        return self.tokens[self.here][:2] if self.here < len(self.tokens) else ("end", None)

    def take(self):
        if self.here == len(self.tokens):
            raise Fault(SYNTAX)
        self.here += 1
        return self.tokens[self.here - 1]

    def eats(self, kind, value):
        if self.peek() == (kind, value):
            self.here += 1
            return True
        return False

    def needs(self, mark):
        if not self.eats("mark", mark):
            raise Fault(SYNTAX)

    def listed(self, closing, one):
        found = []
        while not self.eats("mark", closing):
            found.append(one())
            if not self.eats("mark", ","):
                self.needs(closing)
                break
        return found

    def value(self, level):
        if level > LEVELS:
            raise Fault(SYNTAX)
        kind, value, token = self.take()
        if kind == "word" and value in ("true", "false"):
            return ("flag", value == "true")
        if kind in ("char", "byte"):
            return (kind, value)
        if kind == "int":
            return self.number(token, 1)
        if kind == "str":
            return ("str", value)
        if kind == "name":
            return self.form(value, level)
        return self.marked(value, level) if kind == "mark" else self.none()

    @staticmethod
    def none():
        raise Fault(SYNTAX)

    @staticmethod
    def number(token, sign):
        if token.value is None:
            raise Fault(SYNTAX)
        return ("int", sign * token.value, token.suffix)

    def marked(self, mark, level):
        if mark == "-":
            kind, _, token = self.take()
            return self.number(token, -1) if kind == "int" else self.none()
        if mark == "*":
            kind, value, _ = self.take()
            return ("text", value) if kind == "str" else self.none()
        if mark == "?":
            kind, value, token = self.take()
            plain = kind == "name" and not token.text.startswith("r#") and value in ("opaque", "later", "unseen")
            return (value,) if plain else self.none()
        if mark == "&":
            mutable = self.eats("word", "mut")
            return ("point", mutable, self.value(level + 1))
        if mark == "(":
            return self.round(level)
        if mark == "[":
            return ("row", self.listed("]", lambda: self.value(level + 1)))
        return self.none()

    def round(self, level):
        if self.eats("mark", ")"):
            return ("tuple", [])
        first = self.value(level + 1)
        if self.eats("mark", ")"):
            return first
        self.needs(",")
        return ("tuple", [first] + self.listed(")", lambda: self.value(level + 1)))

    def name(self):
        kind, value, _ = self.take()
        return value if kind == "name" else self.none()

    def form(self, first, level):
        names = [first]
        if self.eats("mark", "::"):
            names.append(self.name())
        if self.eats("mark", "("):
            return ("form", names, "tuple", self.listed(")", lambda: self.value(level + 1)))
        if self.eats("mark", "{"):
            return ("form", names, "brace", self.listed("}", lambda: self.field(level + 1)))
        return ("form", names, "unit", [])

    def field(self, level):
        name = self.name()
        self.needs(":")
        return name, self.value(level)


def spelled(text):
    """What the text spells; rule 40 where it spells nothing."""
    try:
        tokens = lex(text.encode("utf-8"))
    except Fault:
        raise Fault(SYNTAX)
    speller = Speller(tokens)
    found = speller.value(1)
    if speller.peek()[0] != "end":
        raise Fault(SYNTAX)
    return found


class Meaning:
    """Which value of a type is spelled; rule 41 where it is none."""

    def __init__(self, declarations):
        self.declarations = declarations

    def of(self, it, ty, sure):
        kind = ty[0]
        if it[0] in ("opaque", "later", "unseen"):
            return self.odd(it[0], ty, sure)
        if kind == "bool" and it[0] == "flag":
            return it
        if kind == "char" and it[0] == "char":
            return ("num", it[1])
        if kind == "int":
            return self.number(it, ty)
        if kind == "str" and it[0] == "text":
            return it
        if kind == "point":
            return self.point(it, ty)
        if kind == "tuple" and it[0] == "tuple":
            return ("node", 0, self.parts(it[1], ty[1], sure))
        if kind in ("slice", "array") and it[0] == "row":
            if kind == "array" and len(it[1]) != ty[2]:
                raise Fault(TYPE)
            return ("row", [self.of(item, ty[1], sure) for item in it[1]])
        if kind == "named" and it[0] == "form":
            return self.form(it, ty, sure)
        raise Fault(TYPE)

    def odd(self, word, ty, sure):
        declared = ty[0] == "named"
        if word == "opaque" and ty[0] == "opaque":
            return ("thing",)
        if word == "later" and declared and self.declarations.is_marked(ty[1]):
            return ("later",)
        if word == "unseen" and not sure and self.declarations.is_bare(ty):
            return ("unseen",)
        raise Fault(TYPE)

    @staticmethod
    def number(it, ty):
        if it[0] == "byte" and ty[1] == "u8":
            return ("num", it[1])
        if it[0] != "int" or it[2] not in ("", ty[1]):
            raise Fault(TYPE)
        [(low, high)] = numbers_of(ty)
        if (low is not None and it[1] < low) or (high is not None and it[1] > high):
            raise Fault(TYPE)
        return ("num", it[1])

    def point(self, it, ty):
        if it[0] == "str" and not ty[1] and ty[2] == ("str",):
            return ("point", False, ("text", it[1]))
        if it[0] != "point" or it[1] != ty[1]:
            raise Fault(TYPE)
        return ("point", ty[1], self.of(it[2], ty[2], False))

    def parts(self, parts, types, sure):
        if len(parts) != len(types):
            raise Fault(TYPE)
        return [self.of(part, ty, sure) for part, ty in zip(parts, types)]

    def form(self, it, ty, sure):
        _, names, kind, parts = it
        owner = ty[1]
        is_enum = self.declarations.is_enum(owner)
        own = owner if isinstance(owner, str) else self.declarations.items[owner].kind.name
        if len(names) == 2 and (not is_enum or names[0] != own):
            raise Fault(TYPE)
        for number, variant in enumerate(self.declarations.variants(ty)):
            if variant.name == names[-1]:
                if variant.kind != kind:
                    raise Fault(TYPE)
                if kind == "brace":
                    if sorted(name for name, _ in parts) != sorted(variant.labels):
                        raise Fault(TYPE)
                    by_name = dict(parts)
                    parts = [by_name[label] for label in variant.labels]
                return ("node", number, self.parts(parts, variant.types, sure))
        raise Fault(TYPE)


def text_of(writer, quoted, ty, value):
    """The one text of a value."""
    kind = value[0]
    if kind == "text":
        return "*" + quoted(value[1], '"')
    if kind == "thing":
        return "?opaque"
    if kind in ("later", "unseen"):
        return "?" + kind
    if kind == "flag":
        return "true" if value[1] else "false"
    if kind == "num":
        return quoted(chr(value[1]), "'") if ty == ("char",) else str(value[1])
    if kind == "point":
        inner = value[2]
        if inner[0] == "text" and not value[1]:
            return quoted(inner[1], '"')
        return ("&mut " if value[1] else "&") + text_of(writer, quoted, ty[2], inner)
    if kind == "row":
        return "[" + ", ".join(text_of(writer, quoted, ty[1], item) for item in value[1]) + "]"
    types = writer.types(ty, value[1])
    parts = [text_of(writer, quoted, part, one) for part, one in zip(types, value[2])]
    return writer.with_parts(ty, value[1], parts)
