"""Makes a text smaller as long as the two judges still differ on it."""
import re

OPENING, CLOSING = "([{", ")]}"


def parts(text, separator):
    """The places of the pieces of a text between separators outside all brackets and quotes, as pairs."""
    found, start, depth, at = [], 0, 0, 0
    while at < len(text):
        quoted = re.compile(r'"(?:[^"\\]|\\.)*"|b?\'(?:[^\'\\]|\\.[^\']*)\'').match(text, at)
        if quoted:
            at = quoted.end()
            continue
        depth += (text[at] in OPENING) - (text[at] in CLOSING)
        if text[at] == separator and depth == 0:
            found.append((start, at))
            start = at + 1
        at += 1
    return [*found, (start, len(text))]


def brackets(text):
    """The places within each pair of brackets, the outer ones first."""
    found, opened = [], []
    for at, mark in enumerate(text):
        if mark in OPENING:
            opened.append(at + 1)
        elif mark in CLOSING and opened:
            found.append((opened.pop(), at))
    return sorted(found)


def smaller_patterns(pattern):
    """Patterns with one alternative less, or with `_` in place of a part."""
    for start, end in [(0, len(pattern)), *brackets(pattern)]:
        inner = pattern[start:end]
        alternatives = parts(inner, "|")
        for one, other in alternatives if len(alternatives) > 1 else []:
            kept = [inner[a:b].strip() for a, b in alternatives if (a, b) != (one, other)]
            yield pattern[:start] + " | ".join(kept) + pattern[end:]
        for one, other in parts(inner, ","):
            item = inner[one:other].strip()
            name = re.match(r"\w+: ", item)
            hole = (name.group() if name else "") + "_"
            if item not in ("", "_", "..", hole) and (name or "{" not in pattern[:start][-2:]):
                blank = " " if inner[one:other].startswith(" ") else ""
                yield pattern[: start + one] + blank + hole + pattern[start + other :]


def smaller_lines(line):
    """Smaller forms of an arm, without its guard or with a smaller pattern."""
    arm = re.fullmatch(r"(\s*)(.*?)( if crate::guard\(\))? => \{\}", line)
    if arm:
        if arm[3]:
            yield f"{arm[1]}{arm[2]} => {{}}"
        for pattern in smaller_patterns(arm[2]):
            yield f"{arm[1]}{pattern}{arm[3] or ''} => {{}}"


def without(lines):
    """The lines without one declaration, variant or arm."""
    at = 0
    while at < len(lines):
        end = at + 1
        if lines[at].startswith("enum "):
            end = lines.index("}", at) + 1
            yield lines[:at] + lines[end:]
            end = at + 1
        elif lines[at].startswith(("struct ", "//")) or re.match(r"\s+.*(,|=> \{\})$", lines[at]):
            yield lines[:at] + lines[end:]
        at = end


def candidates(lines):
    """Texts that are one step smaller, those that lose a line first."""
    yield from without(lines)
    for number, line in enumerate(lines):
        for other in smaller_lines(line):
            yield [*lines[:number], other, *lines[number + 1 :]]


def least(text, differs, most=2000):
    """The text without anything that the difference does not need; `differs` is asked at most so often."""
    lines, asked, found = text.splitlines(), 0, True
    while found and asked < most:
        found = False
        for candidate in candidates(lines):
            asked += 1
            if differs("\n".join(candidate) + "\n"):
                lines, found = candidate, True
                break
            if asked >= most:
                break
    return "\n".join(lines) + "\n"
