"""From bytes to tokens, or to the first fault among the rules 1 to 5."""
import re
import unicodedata
from dataclasses import dataclass

from fault import Fault

KEYWORDS = frozenset("""
    as async await break const continue crate dyn else enum extern false fn for if impl in let loop match mod move mut
    pub ref return self Self static struct super trait true type unsafe use where while abstract become box do final
    macro override priv try typeof unsized virtual yield
""".split())
NEVER_RAW = frozenset(["crate", "self", "super", "Self", "_"])
WHITE = frozenset("\t\n\x0b\x0c\r \x85\u200e\u200f\u2028\u2029")
MARKS = """<<= >>= ... ..= :: -> <- => == != <= >= && || += -= *= /= %= ^= &= |= << >> ..
    + - * / % ^ ! & | = < > @ . , ; : # $ ? ~ ( ) [ ] { }""".split()
GREATEST = 2**128 - 1
RAW_TEXT = re.compile(r'(b|c|)r(#*)"')
EXPONENT = re.compile(r"[eE][+-]?_*[0-9][0-9_]*")
SIMPLE = {"n": 10, "r": 13, "t": 9, "\\": 92, "0": 0, "'": 39, '"': 34}


@dataclass
class Token:
    """kind is `name`, `word`, `mark`, `lifetime`, `int`, `float`, `char`, `byte`, `str`, `bytestr` or `cstr`."""

    kind: str
    value: object
    start: int
    end: int
    suffix: str = ""
    text: str = ""

    def is_mark(self, mark):
        return self.kind == "mark" and self.value == mark

    def is_word(self, word):
        return self.kind == "word" and self.value == word


def begins_name(char):
    return char != "" and char.isidentifier()


def goes_on(char):
    return char != "" and ("a" + char).isidentifier()


class Lexer:
    """Reads a text from left to right. Indices count characters, `offset` gives their bytes."""

    def __init__(self, text):
        self.text = text
        self.offset = [0]
        for char in text:
            self.offset.append(self.offset[-1] + len(char.encode("utf-8")))

    def at(self, index):
        return self.text[index : index + 1]

    def fault(self, rule, index):
        return Fault(rule, at=self.offset[index])

    def tokens(self):
        found = []
        index = 1 if self.at(0) == "\ufeff" else 0
        while index < len(self.text):
            behind = self.blank(index)
            if behind is None:
                kind, value, behind, suffix = self.token(index)
                written = self.text[index:behind]
                found.append(Token(kind, value, self.offset[index], self.offset[behind], suffix, written))
            index = behind
        return found

    def blank(self, index):
        """The index behind a white character or a comment, None where none stands here."""
        text = self.text
        if text[index] in WHITE:
            return index + 1
        if text.startswith("//", index):
            end = text.find("\n", index)
            return len(text) if end < 0 else end
        if not text.startswith("/*", index):
            return None
        depth, here = 1, index + 2
        while depth:
            if here >= len(text):
                raise self.fault(3, index)
            if text.startswith("/*", here):
                depth, here = depth + 1, here + 2
            elif text.startswith("*/", here):
                depth, here = depth - 1, here + 2
            else:
                here += 1
        return here

    def token(self, index):
        """Kind, value, index behind and suffix of the token here."""
        text = self.text
        raw = RAW_TEXT.match(text, index)
        if raw:
            return self.raw_text(index, raw)
        if text.startswith("b'", index):
            return self.byte(index)
        for opening, kind in (('"', "str"), ('b"', "bytestr"), ('c"', "cstr")):
            if text.startswith(opening, index):
                value, behind = self.quoted(index, index + len(opening), kind)
                return kind, value, behind, ""
        if text.startswith("r#", index) and begins_name(self.at(index + 2)):
            name, behind = self.name(index + 2)
            if name in NEVER_RAW:
                raise self.fault(2, index)
            return "name", name, behind, ""
        if begins_name(text[index]):
            name, behind = self.name(index)
            kind = "word" if name in KEYWORDS else "mark" if name == "_" else "name"
            return kind, name, behind, ""
        if text[index] in "0123456789":
            return self.number(index)
        if text[index] == "'":
            return self.quote(index)
        for mark in MARKS:
            if text.startswith(mark, index):
                return "mark", mark, index + len(mark), ""
        raise self.fault(2, index)

    def name(self, index):
        """The composed name that begins here, and the index behind it."""
        behind = index + 1
        while goes_on(self.at(behind)):
            behind += 1
        return unicodedata.normalize("NFC", self.text[index:behind]), behind

    def suffix(self, index):
        return self.name(index) if begins_name(self.at(index)) else ("", index)

    def number(self, index):
        text = self.text
        base = {"0x": 16, "0o": 8, "0b": 2}.get(text[index : index + 2], 10)
        taken = "0123456789abcdefABCDEF_" if base == 16 else "0123456789_"
        begin = behind = index if base == 10 else index + 2
        while self.at(behind) and self.at(behind) in taken:
            behind += 1
        digits = text[begin:behind].replace("_", "")
        if not digits or any(int(digit, 16) >= base for digit in digits):
            raise self.fault(2, index)
        if base == 10:
            longest = self.float_end(behind)
            if longest is not None:
                return self.float(index, *longest)
        suffix, end = self.suffix(behind)
        if suffix[:1] in ("e", "E") and suffix:
            raise self.fault(2, index)
        size = int(digits, base)
        return "int", size if size <= GREATEST else None, end, suffix

    def float_end(self, behind):
        """Behind a decimal integer: the index behind the longest float, and whether it has an exponent."""
        exponent = EXPONENT.match(self.text, behind)
        if exponent:
            return exponent.end(), True
        following = self.at(behind + 1)
        if self.at(behind) != "." or (following and following in "._") or begins_name(following):
            return None
        end = behind + 1
        while self.at(end) and self.at(end) in "0123456789_":
            end += 1
        exponent = EXPONENT.match(self.text, end) if end > behind + 1 else None
        return (exponent.end(), True) if exponent else (end, False)

    def float(self, index, end, has_exponent):
        suffix, behind = self.suffix(end)
        if not has_exponent and suffix and suffix[0] in "eE":
            raise self.fault(2, index)
        return "float", None, behind, suffix

    def escape(self, index, kind):
        """The value of the escape at this backslash, and the index behind it."""
        text = self.text
        letter = self.at(index + 1)
        if letter and letter in SIMPLE:
            return SIMPLE[letter], index + 2
        if letter == "x":
            found = re.compile("[0-9a-fA-F]{2}").match(text, index + 2)
            if found and (kind not in ("char", "str") or int(found.group(), 16) <= 0x7F):
                return int(found.group(), 16), found.end()
        if letter == "u" and kind not in ("byte", "bytestr"):
            found = re.compile("\\{([0-9a-fA-F]_*){1,6}\\}").match(text, index + 2)
            if found:
                scalar = int(found.group()[1:-1].replace("_", ""), 16)
                if scalar <= 0x10FFFF and not 0xD800 <= scalar <= 0xDFFF:
                    return scalar, found.end()
        raise self.fault(5, index)

    def quote(self, index):
        """A character literal or a lifetime."""
        following = self.at(index + 1)
        if following == "\\":
            value, behind = self.escape(index + 1, "char")
            if self.at(behind) != "'":
                raise self.fault(2, index)
            return "char", value, behind + 1, ""
        if following and following not in "'\n\r\t" and self.at(index + 2) == "'":
            return "char", ord(following), index + 3, ""
        raw = self.text.startswith("r#", index + 1) and begins_name(self.at(index + 3))
        if raw or begins_name(following):
            name, behind = self.name(index + 3 if raw else index + 1)
            if self.at(behind) != "'" and not (raw and name in NEVER_RAW):
                return "lifetime", name, behind, ""
        raise self.fault(2, index)

    def byte(self, index):
        following = self.at(index + 2)
        if following == "\\":
            value, behind = self.escape(index + 2, "byte")
        elif following and following not in "'\n\r\t" and ord(following) < 0x80:
            value, behind = ord(following), index + 3
        else:
            raise self.fault(2, index)
        if self.at(behind) != "'":
            raise self.fault(2, index)
        return "byte", value, behind + 1, ""

    def line_end(self, index):
        """The length of the line end here: of LF, or of CR and LF; 0 where there is none."""
        return 1 if self.at(index) == "\n" else 2 if self.text.startswith("\r\n", index) else 0

    def quoted(self, start, index, kind):
        """The value of a text whose inside begins at `index`, and the index behind it."""
        value = []
        while self.at(index) != '"':
            char = self.at(index)
            if char == "":
                raise self.fault(4, start)
            if char == "\\" and self.line_end(index + 1):
                index += 1
                while self.line_end(index) or (self.at(index) and self.at(index) in " \t"):
                    index += self.line_end(index) or 1
            elif char == "\\":
                scalar, index = self.escape(index, kind)
                value.append(chr(scalar))
            elif char == "\r":
                index = self.line_of_text(index, value)
            else:
                value.append(char)
                index += 1
        return "".join(value), index + 1

    def line_of_text(self, index, value):
        if not self.line_end(index):
            raise self.fault(2, index)
        value.append("\n")
        return index + 2

    def raw_text(self, start, opening):
        kind = {"": "str", "b": "bytestr", "c": "cstr"}[opening.group(1)]
        closing = '"' + opening.group(2)
        if len(opening.group(2)) > 255:
            raise self.fault(2, start)
        value, index = [], opening.end()
        while not self.text.startswith(closing, index):
            char = self.at(index)
            if char == "":
                raise self.fault(4, start)
            if char == "\r":
                index = self.line_of_text(index, value)
            else:
                value.append(char)
                index += 1
        return kind, "".join(value), index + len(closing), ""


def lex(data):
    """The tokens of the bytes; the first fault is raised."""
    try:
        text = data.decode("utf-8")
    except UnicodeDecodeError as wrong:
        raise Fault(1, at=wrong.start)
    return Lexer(text).tokens()
