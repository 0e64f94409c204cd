"""The functions of a crate's sources: where each stands, what it calls, whether it is public, generic or takes memory.

It reads `.rt` files by their tokens, without types: a call is a name before `(` or `::<`, so two functions of one
name count as one where nothing tells them apart. Names are those that a check prints: the modules of a file, then the
type, then for a method of a trait's impl the trait too. A method of a type's own impl is named by the module that
declares the type (`homes`).
"""
import dataclasses
import pathlib
import re

TOKEN = re.compile(
    r"""(?P<gap>\s+|//[^\n]*|/\*.*?\*/)|(?P<text>b?r(?P<marks>\#*)".*?"(?P=marks)|b?"(?:\\.|[^"\\])*")"""
    r"""|(?P<char>b?'(?:\\[^\n]{1,10}?|[^'\\\n])')|(?P<life>'\w+)|(?P<word>[^\W\d]\w*)|(?P<number>\d\w*)"""
    r"""|(?P<mark>::|->|=>|\.\.=|\.\.|.)""",
    re.S | re.X,
)
CLAUSES = ("requires", "ensures", "ghost")
PAIRS = {"(": ")", "[": "]", "{": "}"}


@dataclasses.dataclass
class Token:
    kind: str
    text: str
    start: int
    end: int


@dataclasses.dataclass
class Function:
    crate: str
    file: str
    name: str
    path: str
    owner: str
    trait: str
    is_public: bool
    is_test: bool
    generics: tuple
    signature: str
    head: tuple
    body: tuple
    calls: frozenset
    cycle: str

    def key(self):
        return f"{self.crate}::{self.path}"

    def module(self):
        """The path of the module that it stands in."""
        parts = self.path.split("::")[: -2 if self.owner else -1]
        return "::".join(parts)


def tokens(text):
    """The tokens of a text, without gaps and comments."""
    found = (Token(match.lastgroup, match[0], match.start(), match.end()) for match in TOKEN.finditer(text))
    return [token for token in found if token.kind not in ("gap", "marks")]


def closing(line, at):
    """The place of the token that closes the bracket at this place."""
    depth = 0
    for i in range(at, len(line)):
        if line[i].text in PAIRS:
            depth += 1
        elif line[i].text in PAIRS.values():
            depth -= 1
            if depth == 0:
                return i
    raise ValueError(f"a bracket at byte {line[at].start} is not closed")


def angled(line, at):
    """The place behind the `>` that closes the `<` at this place."""
    depth = 0
    for i in range(at, len(line)):
        depth += {"<": 1, ">": -1}.get(line[i].text, 0)
        if depth == 0:
            return i + 1
    raise ValueError(f"a bracket at byte {line[at].start} is not closed")


def parameters(line):
    """The names of the type and constant parameters between angle brackets, without the lifetimes."""
    names, depth, is_fresh = [], 0, True
    for token in line[1:-1]:
        if is_fresh and token.kind == "word" and token.text != "const":
            names.append(token.text)
        is_fresh = (is_fresh and token.text == "const") or (depth == 0 and token.text == ",")
        depth += (token.text in "<([") - (token.text in ">)]")
    return tuple(names)


def body_of(line, at):
    """The places of the body's brackets of a function whose `fn` is at this place, or none where it has no body."""
    i = at
    while i < len(line):
        text = line[i].text
        if text == ";":
            return None
        if text in CLAUSES and line[i].kind == "word":
            while line[i].text != "{":
                i += 1
            i = closing(line, i) + 1
        elif text in ("(", "["):
            i = closing(line, i) + 1
        elif text == "{":
            return i, closing(line, i)
        else:
            i += 1
    return None


def calls_in(line):
    """The names that a body calls, with the type before them where one is written."""
    found = set()
    for i, token in enumerate(line[:-1]):
        if token.kind != "word":
            continue
        after = line[i + 1].text
        is_call = after == "(" or (after == "::" and i + 2 < len(line) and line[i + 2].text == "<")
        before = line[i - 1].text if i else ""
        owner = line[i - 2].text if before == "::" and i > 1 else ""
        if is_call or before == "::" or after in (",", ")"):
            found.add((owner, "." if before == "." else "", token.text))
    return frozenset(found)


def module_of(file):
    """The names of a file's module, from `src` on."""
    parts = pathlib.PurePath(file).with_suffix("").parts[1:]
    return tuple(part for part in parts if part not in ("lib", "main", "mod"))


def cycle_of(words):
    """The name in the attribute `#[cycle(NAME)]` among the words before a function, or nothing."""
    at = words.index("cycle") if "cycle" in words else len(words)
    return words[at + 2] if words[at + 1 : at + 2] == ["("] else ""


def homes(texts):
    """The modules of the types that the files of a crate declare, by name, where just one file declares the name."""
    found = {}
    for file, text in texts.items():
        line = tokens(text)
        for before, after in zip(line, line[1:]):
            if before.kind == after.kind == "word" and before.text in ("struct", "enum", "union"):
                found.setdefault(after.text, set()).add(module_of(file))
    return {name: next(iter(modules)) for name, modules in found.items() if len(modules) == 1}


class Reader:
    """Reads one file, with the modules of the crate's types where these are known."""

    def __init__(self, crate, file, text, places=None):
        self.crate, self.file, self.text, self.places = crate, file, text, places or {}
        self.line = tokens(text)
        self.found = []

    def read(self):
        self.items(0, len(self.line), module_of(self.file), ("", "", (), True), False)
        return self.found

    def items(self, at, end, path, holder, is_test):
        """Reads the items between two places."""
        line, first = self.line, at
        while at < end:
            text = line[at].text
            if text == "fn" and line[at].kind == "word":
                at = first = self.function(at, first, path, holder, is_test)
            elif text in ("impl", "trait", "mod") and line[at].kind == "word":
                at = first = self.holder(at, first, path, is_test)
            elif text == ";":
                at = first = at + 1
            elif text in ("(", "["):
                at = closing(line, at) + 1
            elif text == "{":
                at = closing(line, at) + 1
                first = at if at < end and line[at].text not in (";", ",") else first
            else:
                at += 1

    def holder(self, at, first, path, is_test):
        """Reads what stands in a module, a trait or an impl, and gives the place behind it."""
        line = self.line
        opened = at
        while line[opened].text not in ("{", ";"):
            opened += 1
        if line[opened].text == ";":
            return opened + 1
        end = closing(line, opened)
        head = line[at:opened]
        is_test = is_test or "cfg ( test )" in " ".join(token.text for token in line[first:at])
        if head[0].text == "mod":
            self.items(opened + 1, end, path + (head[1].text,), ("", "", (), True), is_test)
        elif head[0].text == "trait":
            is_public = any(token.text == "pub" for token in line[first:at])
            self.items(opened + 1, end, path, (head[1].text, "", (), is_public), is_test)
        else:
            self.items(opened + 1, end, path, self.implemented(head), is_test)
        return end + 1

    def implemented(self, head):
        """The type and the trait of an impl, and its parameters."""
        generics, rest = (), head[1:]
        if rest and rest[0].text == "<":
            behind = angled(rest, 0)
            generics, rest = parameters(rest[:behind]), rest[behind:]
        words = [token.text for token in rest]
        trait = ""
        if "for" in words:
            split = words.index("for")
            trait, rest = named(rest[:split]), rest[split + 1 :]
        return named(rest), trait, generics, True

    def function(self, at, first, path, holder, is_test):
        """Reads a function, and gives the place behind it."""
        line = self.line
        name = line[at + 1].text
        body = body_of(line, at)
        owner, trait, generics, is_open = holder
        if body is None:
            while line[at].text != ";":
                at = closing(line, at) + 1 if line[at].text in PAIRS else at + 1
            return at + 1
        before = [token.text for token in line[first:at]]
        if line[at + 2].text == "<":
            generics = generics + parameters(line[at + 2 : angled(line, at + 2)])
        if "impl" in (token.text for token in line[at : body[0]]):
            generics = generics + ("impl",)
        home = self.places.get(owner, path) if owner and not trait else path
        words = home + tuple(part for part in (owner + trait,) if part) + (name,)
        head = line[first].start if first < len(line) else line[at].start
        is_bare = "pub" in before and before[before.index("pub") + 1 : before.index("pub") + 2] != ["("]
        self.found.append(
            Function(
                self.crate,
                self.file,
                name,
                "::".join(words),
                owner,
                trait,
                is_bare or bool(trait) and is_open,
                is_test or "[ test ]" in " ".join(before),
                generics,
                self.text[line[at].start : line[body[0]].start],
                (head, line[body[0]].start),
                (line[body[0]].start, line[body[1]].end),
                calls_in(line[body[0] : body[1] + 1]),
                cycle_of(before),
            )
        )
        return body[1] + 1


def named(line):
    """The last word of a type's path, before its parameters."""
    name = ""
    for token in line:
        if token.text in ("<", "where"):
            break
        if token.kind == "word" and token.text not in ("dyn", "mut"):
            name = token.text
    return name


def functions(folder):
    """The functions of a crate that stands in this folder."""
    folder = pathlib.Path(folder)
    found = []
    for file in sorted(folder.glob("src/**/*.rt")):
        found += Reader(folder.name, str(file.relative_to(folder)), file.read_text(encoding="utf-8")).read()
    return found
