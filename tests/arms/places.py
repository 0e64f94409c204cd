"""Where the functions of a source stand, and the arms of their matches, by tokens alone."""
from dataclasses import dataclass, field

OPEN, CLOSE = "([{", ")]}"


@dataclass
class Place:
    """A function: its tokens' places in the source, its parameter and scrutinee as they are written, and its arms.

    `arms` has, for each arm, where its pattern begins and ends, and whether it has a guard. `end` is the offset of the
    `}` behind the arms, and `comma` whether a comma is wanted before one more arm.
    """

    name: str
    start: int
    stop: int
    parameter: str = ""
    scrutinee: str = ""
    arms: list = field(default_factory=list)
    end: int = 0
    comma: bool = False


def behind(tokens, at):
    """The place behind the group that begins with this token, or behind the token."""
    depth = 0
    while True:
        if tokens[at].kind == "mark" and tokens[at].value in OPEN:
            depth += 1
        if tokens[at].kind == "mark" and tokens[at].value in CLOSE:
            depth -= 1
        at += 1
        if depth == 0:
            return at


def items(tokens):
    """The tokens of each item."""
    found, at, begin = [], 0, 0
    while at < len(tokens):
        last = tokens[at]
        at = behind(tokens, at)
        closes = last.is_mark(";") or last.is_mark("{")
        if closes and not (at < len(tokens) and tokens[at].is_mark(";")):
            found.append(tokens[begin:at])
            begin = at
    return found


def function(data, tokens):
    """The place of a function, or None where the item is none."""
    at = 0
    while at < len(tokens) and not tokens[at].is_word("fn"):
        at = behind(tokens, at)
    if at == len(tokens):
        return None
    place = Place(tokens[at + 1].text, tokens[0].start, tokens[-1].end)
    while not tokens[at].is_mark("("):
        at += 1
    body = behind(tokens, at)
    place.parameter = between(data, tokens[at].end, tokens[body - 1].start)
    while not tokens[body].is_mark("{"):
        body = behind(tokens, body)
    at = body + 2
    begin = at
    while not tokens[at].is_mark("{"):
        at += 1
    place.scrutinee = between(data, tokens[begin].start, tokens[at].start)
    read_arms(place, tokens, at + 1)
    return place


def between(data, start, end):
    return data[start:end].decode("utf-8")


def read_arms(place, tokens, at):
    """Reads the arms of a match from its first one on."""
    while not tokens[at].is_mark("}"):
        while tokens[at].is_mark("#"):
            at = behind(tokens, at + 1)
        begin = at
        while not (tokens[at].is_mark("=>") or tokens[at].is_word("if")):
            at = behind(tokens, at)
        place.arms.append((tokens[begin].start, tokens[at - 1].end, tokens[at].is_word("if")))
        while not tokens[at].is_mark("=>"):
            at = behind(tokens, at)
        at = behind_body(tokens, at + 1)
    place.end = tokens[at].start
    place.comma = not (tokens[at - 1].is_mark("{") or tokens[at - 1].is_mark(","))


def behind_body(tokens, at):
    """The place behind an arm's body and its comma."""
    if tokens[at].is_mark("{"):
        at = behind(tokens, at)
    else:
        while not (tokens[at].is_mark(",") or tokens[at].is_mark("}")):
            at = behind(tokens, at)
    return at + 1 if tokens[at].is_mark(",") else at


def functions(data, tokens):
    """The functions of a source, in order."""
    places = (function(data, item) for item in items(tokens))
    return [place for place in places if place]


def with_arms(data, place, texts):
    """The source with these arms behind those of the function."""
    piece = "".join(text + " => 0, " for text in texts)
    if place.comma:
        piece = ", " + piece
    return data[: place.end] + piece.encode("utf-8") + data[place.end :]
