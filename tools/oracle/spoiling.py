"""What else may be in a source: white space, comments, faults of declarations, a character too many or too few."""
from lexing import lex

BLANKS = [" ", "\n", "\t", "\r\n", "/* */", "// a line\n", "/* a /* nested */ one */", "\u200e", "\u2028"]
CHARACTERS = "(){}[]<>|&.,:;=!@#'\"\\/*-+_ \nabEe019rx" + "é\u00b7\u2028"
DECLARATIONS = [
    "struct Self_(Self_);", "struct Round(Option<Round>);", "struct Row([Row;0]);", "enum Ring{A(Ring)}",
    "struct Endless<'a>(&'a Endless<'a>);", "enum Fine{A(Box<Fine>),B}", "struct Hidden(Nothing);",
    "struct Sized_(str);", "struct Slice([u8]);", "struct Boxed(Box<str>,Rc<[u8]>);", "struct Long([u8;4294967296]);",
    "struct Longest([u8;4294967295usize]);", "struct Kind([u8;3u8]);", "struct Few(Option);", "struct Many(u8<u8>);",
    "struct Lives<'a>(String<'a>);", "use Nothing::*;", "use u8::*;", "use Option::{Some,Any};",
    "use Option::{None,None};", "use Result::*;", "#[cfg(a)]struct Marked;", "#[non_exhaustive]struct Left;",
    "enum Part{#[cfg_attr(a,b)]A}", "enum Part{A(#[non_exhaustive]u8)}", "enum Same{A,B,A}",
    "struct Field{a:u8,a:bool}", "enum Field{V{a:u8,b:u8,a:u8}}", "struct E0;", "struct S0;", "enum E1{}",
    "fn f0(x:u8){match x{}}", "struct f0;", "struct f1{}", "enum Number{A=1,B=-2,C=(1,2)}",
    "pub(in a::b)struct Seen(pub u8,pub(crate)u8);", "impl E0{}", "struct Wide(" + "u8," * 257 + ");",
    "struct Narrow(" + "u8," * 256 + ");", "struct Deep(" + "&'static " * 64 + "u8);",
    "struct Flat(" + "&'static " * 63 + "u8);",
]


def spoiled(rng, lines):
    """A source of these items, most often as they are."""
    lines = list(lines)
    if rng.random() < 0.08:
        lines.insert(rng.randrange(len(lines) + 1), rng.choice(DECLARATIONS))
    text = "\n".join(lines) + "\n"
    if rng.random() < 0.15:
        text = with_blanks(rng, text)
    if rng.random() < 0.06:
        text = with_slip(rng, text)
    return text


def with_blanks(rng, text):
    """The same tokens with white space and comments between some of them."""
    data, found, behind = text.encode("utf-8"), [], 0
    for token in lex(data):
        found.append(data[behind : token.start].decode("utf-8"))
        found.append(rng.choice(BLANKS) if rng.random() < 0.3 else "")
        found.append(data[token.start : token.end].decode("utf-8"))
        behind = token.end
    return rng.choice(["", "", "\ufeff"]) + "".join(found) + rng.choice(["\n", "", "// the end"])


def with_slip(rng, text):
    """A character left out, put in or put in the place of another."""
    place = rng.randrange(len(text))
    kind = rng.randrange(3)
    return text[:place] + ("" if kind == 0 else rng.choice(CHARACTERS)) + text[place + (kind != 1) :]
