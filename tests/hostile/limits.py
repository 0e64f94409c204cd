"""Levels, widths and lengths from both sides of their limits, and sizes that have none."""
import os

from running import CLEAN, FOUND, REFUSED, clean, line, refusal, report, run

LONGEST = 16_777_216
DEEP = 1_000_000
MANY = 65_536
TYPES, PATTERNS, VALUES = "levels of types", "levels of patterns", "levels of values"
WIDTHS, LENGTHS, SIZES = "widths", "numbers and lengths", "what has no limit of its own"
TOO_DEEP = (REFUSED, refusal(6, "syntax", 0, 0))
TOO_WIDE = (REFUSED, refusal(9, "too-wide", 0, 0))
FINE = (CLEAN, clean())
NO_FUNCTION = (CLEAN, report())
NO_VALUE = (REFUSED, refusal(40, "value-syntax"))
TOOK = (CLEAN, line({"arm": 0, "asked": [], "bindings": [], "outcome": "took"}))


def function(ty, arms):
    return f"fn f(x:{ty}){{match x{{{arms}}}}}"


def levels():
    """Rows: what, name, words, source, and the status and output that are wanted."""
    for count, wanted in ((63, FINE), (64, TOO_DEEP)):
        types = {
            "references": "&" * count + "u8",
            "mutable references": "&mut " * count + "u8",
            "round brackets": "(" * count + "u8" + ")" * count,
            "tuples of one": "(" * count + "u8" + ",)" * count,
            "arrays": "[" * count + "u8" + ";1]" * count,
            "arguments": "Option<" * count + "u8" + ">" * count,
        }
        for name, ty in types.items():
            yield TYPES, f"{count} {name}", None, function(ty, "_=>1"), wanted
        fields = wanted if wanted != FINE else NO_FUNCTION
        yield TYPES, f"{count} references in a field", None, f"struct S({'&' * count}u8);", fields
        patterns = {
            "round brackets": ("u8", "(" * count + "_" + ")" * count),
            "names": ("u8", "".join(f"a{i}@" for i in range(count)) + "_"),
            "items": ("&[u8]", "(" * (count - 1) + "[..]" + ")" * (count - 1)),
        }
        for name, (ty, pattern) in patterns.items():
            yield PATTERNS, f"{count} {name}", None, function(ty, pattern + "=>1"), wanted
        value = "(" * count + "1" + ")" * count
        spelled = TOOK if wanted == FINE else NO_VALUE
        yield VALUES, f"{count} round brackets", ["eval", "f.rs", "f", value], function("u8", "_=>1"), spelled
    yield PATTERNS, "63 references", None, function("&" * 63 + "u8", "&" * 63 + "_=>1"), FINE


def widths():
    for count, wanted in ((256, FINE), (257, TOO_WIDE)):
        yield WIDTHS, f"a tuple type of {count}", None, function("(" + "bool," * count + ")", "_=>1"), wanted
        declared = NO_FUNCTION if wanted == FINE else wanted
        yield WIDTHS, f"a struct of {count}", None, "struct S(" + "u8," * count + ");", declared
        named = "{" + "".join(f"a{i}:u8," for i in range(count)) + "}"
        yield WIDTHS, f"a struct of {count} names", None, "struct S" + named, declared
        yield WIDTHS, f"a variant of {count}", None, "enum E{A(" + "u8," * count + ")}", declared
        items = "[" + "_," * count + "]"
        yield WIDTHS, f"a slice pattern of {count}", None, function("&[u8]", items + "=>1,_=>2"), wanted
        items = "[" + "_," * (count - 1) + "..]"
        yield WIDTHS, f"a slice pattern of {count} with its rest", None, function("&[u8]", items + "=>1,_=>2"), wanted
    parts = "(" + "_," * 256 + ")"
    yield WIDTHS, "a tuple pattern of 256", None, function("(" + "bool," * 256 + ")", parts + "=>1"), FINE
    yield WIDTHS, "a tuple pattern of 257", None, function("(bool,)", "(" + "_," * 257 + ")=>1"), TOO_WIDE
    fields = ",".join(f"a{i}:_" for i in range(256))
    declared = "struct S{" + "".join(f"a{i}:u8," for i in range(256)) + "}"
    yield WIDTHS, "a brace pattern of 256", None, function("S", f"S{{{fields}}}=>1") + declared, FINE
    yield WIDTHS, "a brace pattern of 257", None, function("S", f"S{{{fields},b:_}}=>1") + declared, TOO_WIDE


def lengths():
    ends = "[0,..,0]=>1,_=>2"
    yield LENGTHS, "an array of 4,294,967,295", None, function("[u8;4294967295]", ends), FINE
    too_long = (REFUSED, refusal(16, "array-length", 0, 0))
    yield LENGTHS, "an array of 4,294,967,296", None, function("[u8;4294967296]", ends), too_long
    greatest = 2**128 - 1
    yield LENGTHS, "a literal of 128 bits", None, function("u128", f"{greatest}=>1,_=>2"), FINE
    broken = {"arm": 0, "at": 21, "item": 0, "name": "literal-out-of-range", "rule": 28}
    out_of_range = (FOUND, report({"name": "f", "refused": broken}))
    yield LENGTHS, "a literal of 129 bits", None, function("u128", f"{greatest + 1}=>1,_=>2"), out_of_range
    yield LENGTHS, "a literal of a million digits", None, function("u128", "9" * DEEP + "=>1,_=>2"), out_of_range
    for number, wanted in ((greatest, TOOK), (greatest + 1, NO_VALUE)):
        words = ["eval", "f.rs", "f", str(number)]
        yield LENGTHS, f"a value of {number.bit_length()} bits", words, function("u128", "_=>1"), wanted
    bad = (REFUSED, refusal(2, "bad-token", None, 21))
    for marks, wanted in ((255, FINE), (256, bad)):
        text = "r" + "#" * marks + '"a"' + "#" * marks
        yield LENGTHS, f"a raw text of {marks} marks", None, function("&str", text + "=>1,_=>2"), wanted
    yield LENGTHS, f"a file of {LONGEST:,} bytes", None, " " * LONGEST, NO_FUNCTION
    yield LENGTHS, f"a file of {LONGEST + 1:,} bytes", None, " " * (LONGEST + 1), (REFUSED, refusal(7, "too-long"))
    unclosed = (REFUSED, refusal(3, "open-comment", None, 0))
    yield LENGTHS, f"a comment of {LONGEST:,} bytes that is open", None, "/*" + "a" * (LONGEST - 2), unclosed


def sizes():
    yield SIZES, "comments within one another", None, "/*" * DEEP + "*/" * DEEP, NO_FUNCTION
    yield SIZES, "open comments within one another", None, "/*" * DEEP, (REFUSED, refusal(3, "open-comment", None, 0))
    brackets = "(" * DEEP + ")" * DEEP
    yield SIZES, "brackets in a body", None, function("u8", f"_=>{brackets}"), FINE
    yield SIZES, "open brackets in a body", None, function("u8", "_=>" + "(" * DEEP), TOO_DEEP
    yield SIZES, "closed brackets in a body", None, function("u8", "_=>" + ")" * DEEP), TOO_DEEP
    yield SIZES, "brackets in a guard", None, function("u8", f"_ if {brackets}=>1,_=>2"), FINE
    yield SIZES, "brackets in an attribute", None, f"#[{brackets}]" + function("u8", "_=>1"), FINE
    yield SIZES, "attributes", None, "#[a]" * MANY + function("u8", "_=>1"), FINE
    yield SIZES, "open types", None, "fn f(x:" + "(" * DEEP, TOO_DEEP
    yield SIZES, "open patterns", None, "fn f(x:u8){match x{" + "(" * DEEP, TOO_DEEP
    yield SIZES, "open values", ["eval", "f.rs", "f", "(" * 100_000], function("u8", "_=>1"), NO_VALUE
    name = "a" * DEEP
    yield SIZES, "letters of a name", None, f"fn {name}(x:u8){{match x{{_=>1}}}}", (CLEAN, clean(name))
    yield SIZES, "letters of a text", None, function("&str", f'"{name}"=>1,_=>2'), FINE
    variants = "".join(f"V{i}," for i in range(MANY))
    yield SIZES, "variants", None, "enum E{" + variants + "}" + function("u8", "_=>1"), FINE
    numbers = [str(i) for i in range(MANY)]
    yield SIZES, "arms", None, function("u16", "".join(f"{i}=>1," for i in numbers)), FINE
    yield SIZES, "alternatives", None, function("u16", "|".join(numbers) + "=>1"), FINE
    yield SIZES, "items", None, "struct S;" + "".join(f"struct S{i};" for i in numbers), NO_FUNCTION
    arms = ["(" + "".join("true," if i == j else "_," for j in range(16)) + ")=>1," for i in range(16)]
    flags = function("(" + "bool," * 16 + ")", "".join(arms))
    witness = {"text": "(" + ", ".join(["false"] * 16) + ")", "tree": ["node", "", [["flag", False]] * 16]}
    missed = {"exhaustive": False, "name": "f", "overlaps": [], "unreachable": [], "witnesses": [witness]}
    yield SIZES, "sixteen flags, one of them true in each arm", None, flags, (FOUND, report(missed))


def touching(count):
    """Ranges in a row of which each touches the next one, and the report on them."""
    source, places = "fn f(x:u32){match x{", []
    for i in range(count):
        places.append(len(source))
        source += f"{i}..={i + 1}=>1,"
    found = [{"at": places[i], "value": str(i + 1), "with": places[i + 1]} for i in range(count - 1)]
    entry = {"exhaustive": True, "name": "f", "overlaps": found, "unreachable": [], "witnesses": []}
    return source + "_=>2}}", (CLEAN, report(entry))


def try_all(tried, program, folder):
    for rows in (levels(), widths(), lengths(), sizes()):
        for row in rows:
            one(tried, program, folder, *row)


def try_ranges(tried, program, folder):
    for count in (2, 20_000):
        source, wanted = touching(count)
        one(tried, program, folder, "ranges in a row that touch", f"{count} ranges", None, source, wanted)


def one(tried, program, folder, what, name, words, source, wanted):
    with open(os.path.join(folder, "f.rs"), "w", encoding="utf-8") as file:
        file.write(source)
    tried.same(what, name, run(program, words or ["check", "f.rs"], folder), wanted)
