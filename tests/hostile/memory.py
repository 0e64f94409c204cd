"""Memory that is refused: each call for it in turn, and less and less room."""
import os
import resource

from limits import function
from refusing import Refusing
from running import NO_MEMORY, WORDS, clean, line, report, run

CASES = [[["variant", "E::A"], 1], [["variant", "E::B"], 2], [["else"], 3]]
TREE = [["switch", "$", CASES], ["take", 0, []], ["take", 1, []], ["take", 2, []]]
ROW = {"text": "&[false, .., true]", "tree": ["point", "&", ["row", [["flag", False]], True, [["flag", True]]]]}
ROW_ARMS = ["&[Option::Some((-128..=-1))]", "&[Option::Some(_), .., Option::None]", "&[Option::Some(_), .., Option::Some((-128..=-1))]"]
HELD = [{"mode": "ref", "name": "a", "value": "7"}, {"mode": "ref", "name": "t", "value": "[8, 9]"}]
DEMO = {"arms": 5, "exhaustive": 1, "functions": 1, "overlaps": 1, "unreachable": 1, "witnesses": 0}
# Words, source, and what is written where there is memory.
SOURCES = {
    "`trees` on variants": (
        ["trees", "f.rs"], "enum E{A,B,C} fn f(x:E){match x{E::A=>1,E::B=>2,_=>3}}",
        (0, report({"exhaustive": True, "name": "f", "overlaps": [], "tree": TREE, "unreachable": [], "witnesses": []}))),
    "`check` on rows": (
        ["check", "f.rs"], function("&[bool]", "[]=>1,[true,..]=>2,[..,false]=>3"),
        (1, report({"exhaustive": False, "name": "f", "overlaps": [], "unreachable": [], "witnesses": [ROW]}))),
    "`arms` on rows": (
        ["arms", "f.rs"], function("&[Option<i8>]", "[]=>1,[None,..]=>2,[..,Some(0..=127)]=>3"),
        (1, report({"arms": ROW_ARMS, "name": "f"}))),
    "`eval` with a bound rest": (
        ["eval", "f.rs", "f", "&[7, 8, 9]"], function("&[u8]", "[a,t @ ..]=>1,[]=>2"),
        (0, line({"arm": 0, "asked": [], "bindings": HELD, "outcome": "took"}))),
    "`demo 1`": (["demo", "1"], "", (0, line(DEMO))),
}
# Room in pieces of so many bytes, up to so many of them.
PIECE, PIECES = 1 << 20, 400


def wrong_with(found, wanted):
    """What is wrong with a run that may want memory, or None."""
    if found in (wanted, (NO_MEMORY, b"")):
        return None
    return f"it ended with {found[0]} and wrote {found[1][:300]!r}"


def ending(found):
    return "status 6, no output" if found == (NO_MEMORY, b"") else "whole output"


def try_all(tried, program, folder):
    refusing = Refusing(folder)
    path = os.path.join(folder, "f.rs")
    for name, (words, source, wanted) in SOURCES.items():
        with open(path, "w", encoding="utf-8") as file:
            file.write(source)
        found = run(program, words, folder)
        if words[0] == "demo" and found == (WORDS, b""):
            print("tests/hostile: the program knows no `demo`, and its memory is not refused")
            continue
        tried.same("the same sources with all memory", name, found, wanted)
        if refusing.library is None:
            continue
        for from_there_on in (False, True):
            what = f"{name}, memory refused " + ("from each call on" if from_there_on else "at each call")
            for number, found, refused in refusing.in_turn(program, words, folder, "memory", from_there_on):
                wrong = wrong_with(found, wanted)
                if not refused and found != wanted:
                    wrong = f"none was refused, and it ended with {found[0]}"
                tried.add(what, ending(found), wrong, f"call {number}")
    with open(path, "w", encoding="utf-8") as file:
        file.write(function("u16", "".join(f"{i}=>1," for i in range(65_536))))
    room(tried, program, folder)


def room(tried, program, folder):
    """A large source with less and less room for the process. Where the system cannot begin the program, it ends it."""
    wanted = (0, clean())
    for pieces in range(PIECES, 0, -1):

        def hold():
            resource.setrlimit(resource.RLIMIT_AS, (pieces * PIECE, pieces * PIECE))

        found = run(program, ["check", "f.rs"], folder, preexec_fn=hold)
        if isinstance(found[0], str) and found[0].startswith("127"):
            tried.add("a large source with less and less room", "not begun")
            return
        tried.add("a large source with less and less room", ending(found), wrong_with(found, wanted), f"{pieces} MiB")
