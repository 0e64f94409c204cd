"""The bytes that `check FILE`, `trees FILE` and `eval FILE FN VALUE ANSWERS` write."""
import json
import unicodedata

from declarations import Declarations, Options
from enumerating import cross_check
from fault import Fault
from judging import Judge
from lexing import KEYWORDS, lex
from lowering import Lowering, numbered
from overlapping import Overlapping
from parsing import parse
from patterns import check_match
from selecting import Selection
from values import Meaning, spelled, text_of
import syntax as s

GREATEST_FILE = 16_777_216
CLEAN, FOUND, REFUSED = 0, 1, 3


def written(name):
    """A name, raw where it is a keyword."""
    return "r#" + name if name in KEYWORDS else name


def quoted(text, quote):
    parts = [quote]
    for char in text:
        if char in (quote, "\\"):
            parts.append("\\" + char)
        elif " " <= char <= "~":
            parts.append(char)
        else:
            parts.append("\\u{%x}" % ord(char))
    return "".join(parts) + quote


class WitnessWriter:
    def __init__(self, declarations):
        self.declarations = declarations

    def name(self, ty, variant):
        if ty[0] == "tuple":
            return ""
        own = written(self.declarations.variants(ty)[variant].name)
        if isinstance(ty[1], str) or not self.declarations.is_enum(ty[1]):
            return own
        return written(self.declarations.items[ty[1]].kind.name) + "::" + own

    def types(self, ty, variant):
        return list(ty[1]) if ty[0] == "tuple" else self.declarations.variants(ty)[variant].types

    # The tree.
    def tree(self, ty, witness):
        kind = witness[0]
        if kind == "range":
            return ["range"] + [None if end is None else str(end) for end in witness[1:]]
        if kind == "else":
            return ["else", list(witness[1])]
        if kind == "node":
            types = self.types(ty, witness[1])
            return ["node", self.name(ty, witness[1]), [self.tree(*pair) for pair in zip(types, witness[2])]]
        if kind == "point":
            return ["point", "&mut" if witness[1] else "&", self.tree(ty[2], witness[2])]
        if kind == "row":
            front, longer, back = witness[1:]
            return ["row", [self.tree(ty[1], it) for it in front], longer, [self.tree(ty[1], it) for it in back]]
        return list(witness)

    # The text.
    def text(self, ty, witness):
        """The text of a witness at the scrutinee."""
        return "*" + quoted(witness[1], '"') if witness[0] == "text" else self.inner(ty, witness)

    def inner(self, ty, witness):
        kind = witness[0]
        if kind in ("any", "later", "else"):
            return "_"
        if kind == "flag":
            return "true" if witness[1] else "false"
        if kind == "range":
            return self.range(ty, *witness[1:])
        if kind == "point":
            behind = witness[2]
            if behind[0] == "text":
                return ("&mut *" if witness[1] else "") + quoted(behind[1], '"')
            return ("&mut " if witness[1] else "&") + self.inner(ty[2], behind)
        if kind == "row":
            front, longer, back = witness[1:]
            items = [self.inner(ty[1], it) for it in front] + [".."] * longer + [self.inner(ty[1], it) for it in back]
            return "[" + ", ".join(items) + "]"
        return self.node(ty, witness)

    def node(self, ty, witness):
        parts = [self.inner(*pair) for pair in zip(self.types(ty, witness[1]), witness[2])]
        return self.with_parts(ty, witness[1], parts)

    def with_parts(self, ty, number, parts):
        """A tuple, struct or variant by its number, with its parts as texts."""
        if ty[0] == "tuple":
            return "(" + ", ".join(parts) + (",)" if len(parts) == 1 else ")")
        variant = self.declarations.variants(ty)[number]
        name = self.name(ty, number)
        if variant.kind == "unit":
            return name
        if variant.kind == "tuple":
            return name + "(" + ", ".join(parts) + ")"
        if not parts:
            return name + " {}"
        fields = [written(label) + ": " + part for label, part in zip(variant.labels, parts)]
        return name + " { " + ", ".join(fields) + " }"

    @staticmethod
    def range(ty, low, high):
        def one(number):
            return quoted(chr(number), "'") if ty == ("char",) else str(number)

        if low is None and high is None:
            return "_"
        if low is not None and low == high:
            return one(low)
        if high is None:
            greatest = {"usize": 2**64 - 1, "isize": 2**63 - 1}[ty[1]]
            return ty[1] + "::MAX.." if low > greatest else one(low) + ".."
        if low is None:
            return "..isize::MIN" if high < -(2**63) else "..=" + one(high)
        return one(low) + "..=" + one(high)


def entry(declarations, number, twice, trees):
    """The entry of a function in the report."""
    name = declarations.items[number].kind.name
    try:
        match = check_match(declarations, number)
    except Fault as fault:
        return {"name": name, "refused": fault.tree()}
    judge = Judge(declarations, match)
    witnesses = judge.witnesses()
    unreachable = judge.unreachable()
    overlaps = Overlapping(declarations, match).triples()
    if twice is not None:
        twice.append(cross_check(declarations, number, match, witnesses, unreachable, overlaps))
    writer = WitnessWriter(declarations)
    found = {
        "exhaustive": not witnesses,
        "name": name,
        "overlaps": [{"at": at, "value": str(value), "with": other} for at, other, value in overlaps],
        "unreachable": [{"arm": arm, "at": at, "whole": whole} for arm, at, whole in unreachable],
        "witnesses": [{"text": writer.text(match.type, it), "tree": writer.tree(match.type, it)} for it in witnesses],
    }
    if trees:
        found["tree"] = numbered(Lowering(declarations, check_match(declarations, number, True), writer).tree())
    return found


def declared(data, options=Options()):
    """The declarations of a file of these bytes; its first fault is raised."""
    if len(data) > GREATEST_FILE:
        raise Fault(7)
    declarations = Declarations(parse(lex(data)), options)
    fault = declarations.fault()
    if fault is not None:
        raise fault
    return declarations


def check(data, twice=None, trees=False, options=Options()):
    """What `check` writes for a file of these bytes, and its status; with `trees` what `trees` writes.

    Where `twice` is a list, each judgement is made a second way too, and the list gets whether there were few enough
    values for it.
    """
    try:
        declarations = declared(data, options)
    except Fault as fault:
        return output({"refused": fault.tree()}), REFUSED
    functions = [number for number, item in enumerate(declarations.items) if isinstance(item.kind, s.Function)]
    entries = [entry(declarations, number, twice, trees) for number in functions]
    status = CLEAN if all(it.get("exhaustive") for it in entries) else FOUND
    return output({"functions": entries}), status


def evaluate(data, name, text, answers, options=Options()):
    """What `eval FILE FN VALUE ANSWERS` writes for a file of these bytes, and its status; the answers are truth values."""
    try:
        declarations = declared(data, options)
        number = function_named(declarations, name)
        match = check_match(declarations, number, True)
        value = Meaning(declarations).of(spelled(text), match.type, match.sure)
    except Fault as fault:
        return output({"refused": fault.tree()}), REFUSED
    writer = WitnessWriter(declarations)

    def shown(bindings):
        return [{"mode": mode, "name": name, "value": text_of(writer, quoted, ty, it)} for name, mode, ty, it in bindings]

    asked, ending, arm, bindings = Selection(declarations).select(match, value, answers)
    outcome = {
        "arm": arm,
        "asked": [{"arm": arm, "bindings": shown(held)} for arm, held in asked],
        "bindings": None if bindings is None else shown(bindings),
        "outcome": ending,
    }
    return output(outcome), CLEAN if ending == "took" else FOUND


def function_named(declarations, name):
    """The number of the first function of this name, in the composed form."""
    for number, item in enumerate(declarations.items):
        if isinstance(item.kind, s.Function) and item.kind.name == unicodedata.normalize("NFC", name):
            return number
    raise Fault(42)


def output(tree):
    return (json.dumps(tree, ensure_ascii=False, separators=(",", ":"), sort_keys=True) + "\n").encode("utf-8")
