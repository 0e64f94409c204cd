"""From tokens to items, or to the first fault among the rules 6 and 9."""
from fault import Fault
from lexing import Token
import syntax as s

LEVELS = 64
WIDTH = 256
OPENING = {"(": ")", "[": "]", "{": "}"}
CLOSING = frozenset(OPENING.values())
PATH_WORDS = frozenset(["crate", "self", "super", "Self"])


class NoItem(Exception):
    """What stands here is no item."""


class Parser:
    def __init__(self, tokens):
        self.tokens = list(tokens)
        self.here = 0
        self.is_wide = False

    # Single tokens.
    def peek(self, ahead=0):
        index = self.here + ahead
        return self.tokens[index] if index < len(self.tokens) else None

    def sees(self, mark, ahead=0):
        token = self.peek(ahead)
        return token is not None and token.is_mark(mark)

    def sees_word(self, word):
        token = self.peek()
        return token is not None and token.is_word(word)

    def sees_kind(self, *kinds):
        token = self.peek()
        return token is not None and token.kind in kinds

    def take(self):
        token = self.peek()
        if token is None:
            raise NoItem
        self.here += 1
        return token

    def eat(self, mark):
        if self.sees(mark):
            self.here += 1
            return True
        return False

    def eat_word(self, word):
        if self.sees_word(word):
            self.here += 1
            return True
        return False

    def need(self, mark):
        if not self.eat(mark):
            raise NoItem

    def need_word(self, word):
        if not self.eat_word(word):
            raise NoItem

    def name(self):
        if not self.sees_kind("name"):
            raise NoItem
        return self.take().value

    def part(self, double):
        """Makes two marks of a double one that stands here, where a type or a pattern is read."""
        if self.sees(double):
            token = self.peek()
            middle = token.start + 1
            single = double[0]
            self.tokens[self.here : self.here + 1] = [
                Token("mark", single, token.start, middle, "", single),
                Token("mark", single, middle, token.end, "", single),
            ]

    def run(self, *stops):
        """A balanced list of tokens that isn't empty, up to a stop outside or a bracket that closes nothing."""
        begin, open_brackets = self.here, []
        while True:
            token = self.peek()
            mark = token.value if token is not None and token.kind == "mark" else None
            if token is None or (not open_brackets and (mark in CLOSING or mark in stops)):
                break
            if mark in OPENING:
                open_brackets.append(OPENING[mark])
            elif mark in CLOSING and mark != open_brackets.pop():
                raise NoItem
            self.here += 1
        if open_brackets or begin == self.here:
            raise NoItem
        return self.tokens[begin : self.here]

    def list_until(self, closing, one):
        """Things with commas between them and an optional last comma, up to the closing mark."""
        found = []
        while not self.eat(closing):
            found.append(one())
            if not self.eat(","):
                self.need(closing)
                break
        return found

    def narrow(self, things):
        if len(things) > WIDTH:
            self.is_wide = True
        return things

    # Items.
    def file(self):
        while self.file_attribute():
            pass
        items = []
        while self.peek() is not None:
            at = self.peek().start
            self.is_wide = False
            try:
                items.append(self.item())
            except NoItem:
                raise Fault(6, at=at, item=len(items))
            if self.is_wide:
                raise Fault(9, at=at, item=len(items) - 1)
        return items

    def file_attribute(self):
        begin = self.here
        try:
            self.need("#")
            self.need("!")
            self.need("[")
            self.run()
            self.need("]")
            return True
        except NoItem:
            self.here = begin
            return False

    def attributes(self):
        """The words of the attributes here: of each the first name in it, or nothing."""
        words = []
        while self.eat("#"):
            self.need("[")
            names = [token.value for token in self.run() if token.kind == "name"]
            self.need("]")
            words.append(names[0] if names else "")
        return words

    def visibility(self):
        if not self.eat_word("pub"):
            return
        following = self.peek(1)
        if not self.sees("(") or following is None or following.kind != "word":
            return
        if following.value in ("crate", "self", "super"):
            self.here += 2
            self.need(")")
        elif following.value == "in":
            self.here += 2
            self.run()
            self.need(")")

    def item(self):
        at = self.peek().start
        attributes = self.attributes()
        self.visibility()
        if self.eat_word("enum"):
            kind = self.enum()
        elif self.eat_word("struct"):
            kind = self.struct()
        elif self.eat_word("use"):
            kind = self.use()
        else:
            self.need_word("fn")
            kind = self.function()
        return s.Item(at, attributes, kind)

    def parameters(self):
        if self.eat("<"):
            self.list_until(">", self.lifetime)

    def lifetime(self):
        def one():
            if not self.sees_kind("lifetime"):
                raise NoItem
            self.take()

        one()
        if self.eat(":"):
            one()
            while self.eat("+"):
                one()

    def enum(self):
        name = self.name()
        self.parameters()
        self.need("{")
        return s.Enum(name, self.list_until("}", self.variant))

    def variant(self):
        attributes = self.attributes()
        name = self.name()
        form = self.form()
        if self.eat("="):
            self.run(",")
        return s.Variant(name, attributes, form)

    def form(self):
        if self.eat("("):
            return s.Form("tuple", self.narrow(self.list_until(")", self.tuple_field)))
        if self.eat("{"):
            return s.Form("brace", self.narrow(self.list_until("}", self.brace_field)))
        return s.Form("unit", [])

    def tuple_field(self):
        attributes = self.attributes()
        self.visibility()
        return s.FieldDeclaration(None, attributes, self.type(1))

    def brace_field(self):
        attributes = self.attributes()
        self.visibility()
        name = self.name()
        self.need(":")
        return s.FieldDeclaration(name, attributes, self.type(1))

    def struct(self):
        name = self.name()
        self.parameters()
        form = self.form()
        if form.kind != "brace":
            self.need(";")
        return s.Struct(name, form)

    def use(self):
        owner = self.name()
        self.need("::")
        names = None
        if not self.eat("*"):
            self.need("{")
            names = self.list_until("}", self.name)
        self.need(";")
        return s.Use(owner, names)

    def function(self):
        name = self.name()
        self.parameters()
        self.need("(")
        self.eat_word("mut")
        parameter_name = self.name()
        self.need(":")
        parameter = self.type(1)
        self.eat(",")
        self.need(")")
        if self.eat("->"):
            self.run("{")
        self.need("{")
        self.need_word("match")
        star = self.peek().start if self.sees("*") else None
        self.eat("*")
        if self.name() != parameter_name:
            raise NoItem
        self.need("{")
        arms = []
        while not self.eat("}"):
            arms.append(self.arm())
        self.need("}")
        return s.Function(name, parameter, star, arms)

    def arm(self):
        attributes = self.attributes()
        pattern = self.whole_pattern()
        guarded = self.eat_word("if")
        if guarded:
            self.run("=>")
        self.need("=>")
        if self.eat("{"):
            if not self.eat("}"):
                self.run()
                self.need("}")
            self.eat(",")
        else:
            self.run(",", "=>")
            if not self.eat(",") and not self.sees("}"):
                raise NoItem
        return s.Arm(attributes, pattern, guarded)

    # Types.
    def type(self, level):
        if level > LEVELS:
            raise NoItem
        self.part("&&")
        if self.eat("!"):
            return s.Never()
        if self.eat("("):
            return self.round_type(level)
        if self.eat("&"):
            if self.sees_kind("lifetime"):
                self.take()
            mutable = self.eat_word("mut")
            return s.Reference(mutable, self.type(level + 1))
        if self.eat("["):
            return self.square_type(level)
        name = self.name()
        arguments = []
        if self.eat("<"):
            arguments = self.arguments(level)
        return s.NamedType(name, arguments)

    def round_type(self, level):
        if self.eat(")"):
            return s.TupleType([])
        first = self.type(level + 1)
        if self.eat(")"):
            return first
        self.need(",")
        others = self.list_until(")", lambda: self.type(level + 1))
        return s.TupleType(self.narrow([first] + others))

    def square_type(self, level):
        item = self.type(level + 1)
        if self.eat("]"):
            return s.SliceType(item)
        self.need(";")
        if not self.sees_kind("int"):
            raise NoItem
        length = self.take()
        self.need("]")
        return s.ArrayType(item, length.value, length.suffix)

    def arguments(self, level):
        """Behind `<`: the type arguments; lifetimes are left out."""
        found = []
        while True:
            self.part(">>")
            if self.eat(">"):
                return found
            if self.sees_kind("lifetime"):
                self.take()
            else:
                found.append(self.type(level + 1))
            self.part(">>")
            if not self.eat(","):
                self.need(">")
                return found

    # Patterns.
    def whole_pattern(self):
        """An arm's pattern. While it is read only forms are counted; whether it has too many levels the tree tells."""
        found = self.pattern(1)
        if s.levels(found) > LEVELS:
            raise NoItem
        return found

    def pattern(self, level):
        self.eat("|")
        at = self.peek().start if self.peek() is not None else None
        alternatives = [self.alternative(level)]
        while self.eat("|"):
            alternatives.append(self.alternative(level))
        return alternatives[0] if len(alternatives) == 1 else s.Or(at, alternatives)

    def begins_end(self):
        """Whether the next token begins an end of a range."""
        token = self.peek()
        if token is None:
            return False
        if token.kind == "word":
            return token.value in PATH_WORDS
        return token.kind in ("char", "byte", "int", "float", "name") or token.is_mark("-")

    def path(self):
        names, plain = [], True
        while True:
            token = self.take()
            if token.kind == "word" and token.value in PATH_WORDS:
                plain = False
            elif token.kind != "name":
                raise NoItem
            names.append(token.value)
            if not self.eat("::"):
                return s.Path(names, plain)

    def number(self):
        """A literal without texts, which may be an end of a range."""
        negative = self.eat("-")
        token = self.take()
        if token.kind == "int":
            value = token.value
            return s.Number("int", -value if negative and value is not None else value, token.suffix)
        if token.kind == "float":
            return s.Number("other")
        if negative or token.kind not in ("char", "byte"):
            raise NoItem
        return s.Number(token.kind, token.value)

    def end(self):
        if self.sees_kind("name", "word"):
            self.path()
            return s.Number("other")
        return self.number()

    def range_behind(self, at, low):
        """What stands from a mark of ranges on, or None where none stands here."""
        closed = self.sees("..=")
        if not closed and not self.sees(".."):
            return None
        self.take()
        high = self.end() if self.begins_end() else None
        if high is None and (closed or low is None):
            raise NoItem
        return s.Range(at, low, high, closed)

    def alternative(self, level):
        if level > LEVELS:
            raise NoItem
        token = self.peek()
        if token is None:
            raise NoItem
        found = self.range_behind(token.start, None)
        if found is not None:
            return found
        return self.plain(level, True)

    def plain(self, level, may_be_range):
        """A pattern that is no range, or where `may_be_range` holds one that begins with its low end."""
        if level > LEVELS:
            raise NoItem
        self.part("&&")
        token = self.peek()
        if token is None:
            raise NoItem
        at = token.start
        if self.eat("_"):
            return s.Wild(at)
        if token.kind == "word" and token.value in ("true", "false"):
            self.take()
            return s.Literal(at, s.Number("flag", token.value == "true"))
        if token.kind in ("str", "bytestr", "cstr"):
            self.take()
            return s.Literal(at, s.Number("str", token.value) if token.kind == "str" else s.Number("other"))
        if token.kind in ("char", "byte", "int", "float") or token.is_mark("-"):
            return self.numeric(at, may_be_range)
        if token.kind == "word" and token.value in ("ref", "mut"):
            by_ref = self.eat_word("ref")
            mutable = self.eat_word("mut")
            return self.behind_name(at, self.name(), by_ref, mutable, level)
        if token.kind == "name" and self.sees("@", 1):
            return self.behind_name(at, self.name(), False, False, level)
        if token.kind == "name" or (token.kind == "word" and token.value in PATH_WORDS):
            return self.of_path(at, level, may_be_range)
        if self.eat("("):
            return self.round(at, level)
        if self.eat("["):
            return s.SlicePattern(at, self.narrow(self.list_until("]", lambda: self.slice_item(level + 1))))
        if self.eat("&"):
            mutable = self.eat_word("mut")
            return s.Point(at, mutable, self.plain(level + 1, False))
        raise NoItem

    def numeric(self, at, may_be_range):
        low = self.number()
        found = self.range_behind(at, low) if may_be_range else None
        return s.Literal(at, low) if found is None else found

    def behind_name(self, at, name, by_ref, mutable, level):
        inner = self.alternative(level + 1) if self.eat("@") else None
        return s.Named(at, name, by_ref, mutable, inner)

    def of_path(self, at, level, may_be_range):
        path = self.path()
        if may_be_range:
            found = self.range_behind(at, s.Number("other"))
            if found is not None:
                return found
        if self.eat("("):
            return s.TupleForm(at, path, self.narrow(self.list_until(")", lambda: self.item_or_rest(level + 1))))
        if self.eat("{"):
            return self.braces(at, path, level)
        if path.plain and len(path.names) == 1:
            return s.Named(at, path.names[0])
        return s.PathPattern(at, path)

    def braces(self, at, path, level):
        fields, rest = [], False
        while not self.eat("}"):
            if self.eat(".."):
                rest = True
                self.need("}")
                break
            fields.append(self.field(level + 1))
            if not self.eat(","):
                self.need("}")
                break
        self.narrow(fields)
        return s.BraceForm(at, path, fields, rest)

    def field(self, level):
        attributes = self.attributes()
        token = self.peek()
        if token is None:
            raise NoItem
        if token.kind == "int" and self.sees(":", 1):
            self.take()
            if token.text != str(token.value):
                raise NoItem
            self.need(":")
            return s.Field(str(token.value), attributes, self.pattern(level))
        if token.kind == "name" and self.sees(":", 1):
            name = self.name()
            self.need(":")
            return s.Field(name, attributes, self.pattern(level))
        if level > LEVELS:
            raise NoItem
        by_ref = self.eat_word("ref")
        mutable = self.eat_word("mut")
        name = self.name()
        return s.Field(name, attributes, s.Named(token.start, name, by_ref, mutable, None, True))

    def round(self, at, level):
        if self.eat(")"):
            return s.TuplePattern(at, [])
        first = self.item_or_rest(level + 1)
        if self.eat(")"):
            return s.TuplePattern(at, [first]) if isinstance(first, s.Rest) else s.Group(at, first)
        self.need(",")
        others = self.list_until(")", lambda: self.item_or_rest(level + 1))
        return s.TuplePattern(at, self.narrow([first] + others))

    def rest_here(self):
        """Whether a `..` stands here that is no range."""
        if not self.sees(".."):
            return False
        self.here += 1
        is_range = self.begins_end()
        self.here -= 1
        return not is_range

    def item_or_rest(self, level):
        if not self.rest_here():
            return self.pattern(level)
        if level > LEVELS:
            raise NoItem
        return s.Rest(self.take().start)

    def slice_item(self, level):
        begin = self.here
        at = self.peek().start if self.peek() is not None else None
        by_ref = self.eat_word("ref")
        mutable = self.eat_word("mut")
        if self.sees_kind("name"):
            name = self.name()
            if self.eat("@") and self.rest_here():
                if level + 1 > LEVELS:
                    raise NoItem
                return s.Named(at, name, by_ref, mutable, s.Rest(self.take().start))
        self.here = begin
        return self.item_or_rest(level)


def parse(tokens):
    """The items of the tokens; the first fault is raised."""
    return Parser(tokens).file()
