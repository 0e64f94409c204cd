"""The JSON of findings, counted a second time: from the file, the reports and docs/editors.md alone, in plain Python.

The places come from the second reading of the text (tools/explained/explaining.py), which finds them by the oracle's
tokens. Lines, columns and the lines of a span are counted here.
"""
import os
import sys

HERE = os.path.dirname(os.path.abspath(__file__))
TOP = os.path.dirname(os.path.dirname(HERE))
sys.path[:0] = [os.path.join(TOP, "tools/explained"), os.path.join(TOP, "tools/oracle")]
from explaining import findings_of

MARK = b"\xef\xbb\xbf"
# How many characters of a line a span shows.
MOST = 1000
KEYS = {"$message_type", "children", "code", "level", "message", "rendered", "spans"}
CODES = {"unreachable pattern": "unreachable-pattern",
         "multiple patterns overlap on their endpoints": "overlapping-range-endpoints"}


def characters(piece):
    """How many characters begin in these bytes."""
    return sum(byte & 0xC0 != 0x80 for byte in piece)


def place_of(data, at):
    """The line and the column of a byte, and where the line begins. A byte order mark is no part of its line."""
    before = data[:at]
    start = before.rfind(b"\n") + 1 or (len(MARK) if data.startswith(MARK) else 0)
    return before.count(b"\n") + 1, characters(before[start:]) + 1, start


def first_characters(line):
    """The first bytes of a line, those of so many characters."""
    count = 0
    for number, byte in enumerate(line):
        count += byte & 0xC0 != 0x80
        if count > MOST:
            return line[:number]
    return line


def lines_of(data, start, begin, end):
    """The lines of a span with what is marked of each; the first line begins at a byte."""
    lines = []
    while True:
        stop = data.find(b"\n", start)
        line = first_characters(data[start:] if stop < 0 else data[start:stop])
        lines.append({"text": line.decode("utf-8", "replace"),
                      "highlight_start": characters(line[:max(begin - start, 0)]) + 1,
                      "highlight_end": characters(line[:max(end - start, 0)]) + 1})
        if stop < 0 or stop >= end:
            return lines
        start = stop + 1


def span(data, name, place, label=None, replacement=None):
    """A span of the file."""
    begin, end = place
    line, column, start = place_of(data, begin)
    last_line, last_column, _ = place_of(data, end)
    return {"file_name": name, "byte_start": begin, "byte_end": end, "line_start": line, "line_end": last_line,
            "column_start": column, "column_end": last_column, "is_primary": True,
            "text": lines_of(data, start, begin, end), "label": label, "suggested_replacement": replacement,
            "suggestion_applicability": replacement and "HasPlaceholders", "expansion": None}


def code_of(title, breaks, notes):
    """The short name of a finding."""
    words = notes[0][1]
    if breaks and " breaks rule " in words:
        return words[words.rindex("(") + 1:-1]
    return CODES.get(title, "non-exhaustive-patterns")


def counted(data, name, report, arms):
    """The objects that are to be written, but for `rendered`, and where arms are put in. A suggestion's place and comma
    are taken on trust here: whoever puts the arms in sees whether they are right."""
    objects = []
    for place, breaks, title, label, notes in findings_of(data, report, arms):
        children = [{"children": [], "code": None, "level": level, "message": words, "rendered": None,
                     "spans": [span(data, name, where)] if where and not lines else [], "lines": lines}
                    for level, words, where, lines in notes]
        objects.append({"$message_type": "diagnostic", "children": children,
                        "code": {"code": "matchcheck::" + code_of(title, breaks, notes), "explanation": None},
                        "level": "error" if breaks else "warning", "message": title,
                        "spans": [span(data, name, place, label)] if place else []})
    return objects


def wrong_suggestion(data, name, child, lines):
    """What is wrong with the arms that a note puts in, or None."""
    if len(child["spans"]) != 1:
        return "arms to add have no place"
    told = child["spans"][0]
    at, text = told["byte_start"], told["suggested_replacement"]
    if told != span(data, name, (at, at), None, text):
        return "the place of arms to add is no empty span of the file"
    if data[at:at + 1] != b"}":
        return "the place of arms to add is not before a bracket"
    if text.removeprefix(",\n    ") != "".join(f"    {line}\n    " for line in lines):
        return f"other arms are put in: {text!r}"
    return None


def wrong_child(data, name, child, wanted):
    """What is wrong with a note, or None."""
    lines = wanted.pop("lines")
    if lines and child.get("spans"):
        wrong = wrong_suggestion(data, name, child, lines)
        if wrong:
            return wrong
        child = dict(child, spans=[])
    return None if child == wanted else f"a note is {child} and not {wanted}"


def wrong_object(data, name, told, wanted):
    """What is wrong with the object of a finding, or None."""
    if set(told) != KEYS:
        return f"the keys are {sorted(told)}"
    if len(told["children"]) != len(wanted["children"]):
        return f"{len(told['children'])} notes and not {len(wanted['children'])}"
    for child, other in zip(told["children"], wanted["children"]):
        wrong = wrong_child(data, name, child, other)
        if wrong:
            return wrong
    for key in KEYS - {"children", "rendered"}:
        if told[key] != wanted[key]:
            return f"{key} is {told[key]} and not {wanted[key]}"
    return None


def with_suggestions(data, objects):
    """The file with all arms put in."""
    puts = [(child["spans"][0]["byte_start"], child["spans"][0]["suggested_replacement"]) for told in objects for child in told["children"]
            if child["spans"] and child["spans"][0]["suggested_replacement"]]
    for at, text in sorted(puts, reverse=True):
        data = data[:at] + text.encode("utf-8") + data[at:]
    return data, len(puts)
