"""Differences between the checker and rustc that docs/rustc.md explains.

A reason holds for a match only if the match shows the very case. All else stays unexplained.
"""
import pathlib
import re
import sys

# The oracle reads the rules on its own. It tells what a pattern binds.
sys.path.append(str(pathlib.Path(__file__).resolve().parent.parent / "oracle"))
from declarations import Options
from fault import Fault
from patterns import ArmChecker
from reporting import declared
from syntax import Function
from verdicts import EDITION

EMPTY_TYPE = "an arm is unreachable, since a type behind it is empty"
TWO_MODES = "alternatives bind a name of one type by move and by a default `ref`"

BODY = b"    match x {"
EMPTY = re.compile(r"^enum (\w+) \{\n\}$", re.MULTILINE)


def filled(text):
    """The text with a variant in each empty enum, and with a struct in place of `!`."""
    text = EMPTY.sub(r"enum \1 {\n    NotEmpty,\n}", text)
    declared_types, header, body = text.partition("fn matched(")
    parameter, rest, arms = body.partition("\n")
    lines = [line.replace("!", "NotNever") for line in (declared_types, parameter)]
    return "struct NotNever;\n" + lines[0] + header + lines[1] + rest + arms


def is_by_empty_types(judges, ours, theirs, text):
    """Whether the checker alone calls some arms unreachable, and the judges agree once no type is empty."""
    more = ours.unreachable - theirs.unreachable
    if not more or ours._replace(unreachable=theirs.unreachable) != theirs or theirs.unreachable - ours.unreachable:
        return False
    other = filled(text)
    after = judges.our_text(other)
    shift = other.encode().index(BODY) - text.encode().index(BODY)
    is_reached = after.refused is None and not any(at + shift in after.unreachable for at in more)
    return is_reached and judges.theirs([other])[0] == after


def final(bound):
    """The type of the variable that a pattern binds, by the type of its place and the mode."""
    _, place, mode = bound
    return place if mode == "move" else ("point", mode == "ref mut", place)


def has_two_modes(alternatives):
    """Whether these sets of bindings have equal names and types, and differ only by `move` and `ref`."""
    every = set().union(*alternatives)
    names = {name for name, _, _ in every}
    if any({name for name, _, _ in one} != names for one in alternatives):
        return False
    bounds = [[bound for bound in every if bound[0] == name] for name in names]
    return all(
        len({final(bound) for bound in of_name}) == 1 and {mode for _, _, mode in of_name} == {"move", "ref"}
        for of_name in bounds if len(of_name) > 1
    )


def differing_alternatives(text):
    """The or-patterns whose alternatives do not bind the same, each as a list of sets; None if a rule is broken."""
    found = []
    try:
        declarations = declared(text.encode(), Options(edition=int(EDITION)))
        function = next(item.kind for item in declarations.items if isinstance(item.kind, Function))
        for arm in function.arms:
            checker = ArmChecker(declarations, False)
            checker.visit(arm.pattern, declarations.type_of(function.parameter), "move")
            found += [sets for _, sets in checker.alternatives_of if any(one != sets[0] for one in sets)]
    except Fault:
        return None
    return found


def is_by_two_modes(ours, theirs, text):
    """Whether the checker refuses alternatives by rule 31, and all that differs in them is `move` and a default `ref`.

    A written `ref` stands in all alternatives or in none, since rustc accepts the text.
    """
    if ours.refused != "rule 31 (alternatives-differ)" or theirs.refused is not None:
        return False
    found = differing_alternatives(text)
    return bool(found) and all(has_two_modes(alternatives) for alternatives in found)


def explained(judges, ours, theirs, text):
    """Why two verdicts on a text differ, or None where nothing explains it."""
    if ours.refused is None and theirs.refused is None and is_by_empty_types(judges, ours, theirs, text):
        return EMPTY_TYPE
    return TWO_MODES if is_by_two_modes(ours, theirs, text) else None
