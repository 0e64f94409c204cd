"""The text of a report beside its file, a second time: in plain Python, from docs/use.md and docs/report.md alone. Nothing about it is proved.

Lines and columns are counted from the decoded text before a place; functions and the ends of patterns are found by the oracle's tokens.
"""
import os
import re
import sys
import unicodedata

HERE = os.path.dirname(os.path.abspath(__file__))
sys.path.insert(0, os.path.join(os.path.dirname(HERE), "oracle"))
from lexing import Token, lex

MOST = 80
WITNESSES = 8
ARMS = 16
ADDING = "ensure that all possible cases are being handled by adding "
ONE_ARM = ADDING + "a match arm with an explicit pattern as shown"
MANY_ARMS = ADDING + "multiple match arms as shown"
RULES = os.path.join(os.path.dirname(os.path.dirname(HERE)), "crates/rule_texts/src/lib.rt")
MARK = b"\xef\xbb\xbf"


def rule_texts():
    """The title, the label and the help of each rule by its number, as the program has them: the words before a name and those behind it, or one text."""
    with open(RULES, encoding="utf-8") as file:
        source = file.read()
    form = re.compile(r'^ *(\d+) => (?:\{\s*)?(?:plain|named)\(\s*"(.*?)"(?:,\s*"(.*?)")?,?\s*\)', re.M)
    parts = re.split("pub fn rule_label|pub fn rule_help", source)
    titles, labels, helps = ({int(number): (front, back) for number, front, back in filled(form, part)} for part in parts)
    return {number: (titles[number], labels[number], helps.get(number)) for number in titles}


def filled(form, part):
    """The rules of a table: number, words, and the words behind a name or None."""
    for match in form.finditer(part):
        yield match[1], match[2], match[3] if "named(" in match[0] else None


def phrase(words, name):
    """Words on what has this name."""
    front, back = words
    return front if back is None else f"{front}`{name}`{back}"


def functions_with_arms(data):
    """For each function of a source that lexes, by its tokens: from where to where its scrutinee stands, and where the `=>` of its arms do."""
    found, depth, in_header = [], 0, False
    tokens = lex(data)
    for number, token in enumerate(tokens):
        if token.kind == "mark" and token.value in "([{":
            if in_header and depth == 0 and token.value == "{":
                in_header = False
                found.append((scrutinee(tokens[number:]), []))
            depth += 1
        elif token.kind == "mark" and token.value in ")]}":
            depth -= 1
        elif depth == 0 and not in_header and token.is_word("fn") and tokens[number + 1].kind == "name":
            in_header = True
        elif depth == 2 and found and not in_header and token.is_mark("=>"):
            found[-1][1].append(token.start)
    return found


def scrutinee(tokens):
    """From where to where the scrutinee stands in a body with these tokens."""
    end = 2
    while not tokens[end].is_mark("{"):
        end += 1
    return tokens[2].start, tokens[end - 1].end


def tokens_at(data, at):
    """The tokens from a byte on, also from the second half of a `&&`."""
    for number, token in enumerate(tokens := lex(data)):
        if token.start == at:
            return tokens[number:]
        if token.start < at < token.end and token.value in ("&&", ">>"):
            return [Token("mark", token.value[1], at, token.end), *tokens[number + 1:]]
    raise ValueError(f"no token begins at byte {at}")


def pattern_at(data, at, whole):
    """From where to where the pattern or alternative stands that begins at a byte. It has the token that begins there."""
    first, *others = tokens_at(data, at)
    depth, end = int(first.kind == "mark" and first.value in "([{"), first.end
    for token in others:
        if token.kind == "mark" and token.value in "([{":
            depth += 1
        elif token.kind == "mark" and token.value in ")]}":
            depth -= 1
            if depth < 0:
                break
        elif depth == 0 and (token.is_mark("=>") or token.is_mark(",") or token.is_word("if") or token.is_mark("|") and not whole):
            break
        end = token.end
    return at, end


def refused_at(data, refused):
    """From where to where the file breaks a rule, or None."""
    at, rule = refused["at"], refused["rule"]
    if at is None:
        return None
    if rule <= 5:
        return at, at
    tokens = tokens_at(data, at)
    if rule == 6:
        return at, tokens[0].end
    depth = 0
    for token in tokens:
        if token.kind == "mark" and token.value in "([{":
            depth += 1
        elif token.kind == "mark" and token.value in ")]}":
            depth -= 1
        elif depth == 0 and token.kind == "name":
            return token.start, token.end
    raise ValueError("an item has no name")


def broken_at(data, refused):
    """From where to where a function breaks a rule, or None."""
    at, rule = refused["at"], refused["rule"]
    if at is None:
        return None
    if rule == 34:
        return at, tokens_at(data, at)[1].end
    if rule in (21, 30):
        return next((token.start, token.end) for token in tokens_at(data, at) if token.kind == "name")
    return pattern_at(data, at, False)


def name_of(data, span):
    """What is shown of a place on its first line."""
    return shown(data[span[0]:span[1]].decode("utf-8", "replace").split("\n")[0][:MOST]) if span else ""


def refusal(data, span, refused, who):
    """The finding that a rule is broken: (span, whether it breaks a build, title, label, notes)."""
    title, label, advice = rule_texts()[refused["rule"]]
    name = name_of(data, span)
    notes = [("note", f"{who} breaks rule {refused['rule']} ({refused['name']})", None, [])]
    if advice:
        notes.append(("help", phrase(advice, name), None, []))
    return span, True, phrase(title, name), phrase(label, name), notes


def findings_of(data, report, arms=None):
    """((from, to) or None, whether it breaks a build, title, label, notes); a note is its level, words, place or None, and lines of code."""
    if "functions" not in report:
        return [refusal(data, refused_at(data, report["refused"]), report["refused"], "the file")]
    found = []
    for number, (entry, (head, _)) in enumerate(zip(report["functions"], functions_with_arms(data), strict=True)):
        added = arms["functions"][number].get("arms", []) if arms and "functions" in arms else []
        found.extend(function_findings(data, entry, head, added))
    found.sort(key=lambda finding: finding[0][0] if finding[0] else 0)
    return found


def function_findings(data, entry, head, arms):
    """The findings of a function, in the order of its entry."""
    function = entry["name"]
    if "refused" in entry:
        return [refusal(data, broken_at(data, entry["refused"]), entry["refused"], f"`{function}`")]
    found = []
    if not entry["exhaustive"]:
        texts = [witness["text"] for witness in entry["witnesses"]]
        word = "" if not texts else "pattern " if len(texts) == 1 else "patterns "
        found.append((head, True, f"non-exhaustive patterns: {cases(texts)} not covered", f"{word}{cases(texts)} not covered",
                      missing(function, texts, arms)))
    for dead in entry["unreachable"]:
        kind = "arm" if dead["whole"] else "alternative"
        note = ("note", f"no value of the match of `{function}` reaches this {kind}", None, [])
        found.append((pattern_at(data, dead["at"], dead["whole"]), False, "unreachable pattern", "no value can reach this", [note]))
    for overlap in entry["overlaps"]:
        notes = [("note", "... with this range", pattern_at(data, overlap["with"], False), []),
                 ("note", "you likely meant to write mutually exclusive ranges", None, [])]
        found.append((pattern_at(data, overlap["at"], False), False, "multiple patterns overlap on their endpoints",
                      f"this range overlaps on `{overlap['value']}`...", notes))
    return found


def cases(texts):
    """Cases as rustc lists them."""
    names = [f"`{text}`" for text in texts[:3]]
    if not names:
        return "some values"
    if len(texts) > 3:
        return f"{', '.join(names)} and {len(texts) - 3} more"
    return names[0] if len(names) == 1 else f"{', '.join(names[:-1])} and {names[-1]}"


def missing(function, texts, arms):
    """The notes on missing cases: the arms to add where they are told, or else the first cases."""
    count = ("note", f"the match of `{function}` leaves cases out: {len(texts)}", None, [])
    if arms:
        rest = [f"_ => todo!(), // the other cases: {len(arms) - ARMS}"] if len(arms) > ARMS else []
        return [count, ("help", ONE_ARM if len(arms) == 1 else MANY_ARMS, None, [f"{arm} => todo!()," for arm in arms[:ARMS]] + rest)]
    notes = [("help", f"add an arm for `{text}`", None, []) for text in texts[:WITNESSES]]
    more = [("help", f"and for {len(texts) - WITNESSES} more", None, [])] if len(texts) > WITNESSES else []
    return notes + more + [count]


def place_of(data, at):
    """The line and the column of a byte offset, counted from the decoded text before it."""
    before = data[:at].decode("utf-8").removeprefix("\ufeff")
    lines = before.split("\n")
    return len(lines), len(lines[-1]) + 1


def shown(text):
    """What is shown of a piece of a line."""
    text = text.replace("\t", "    ").replace("\r", "")
    return "".join("?" if ord(char) < 32 or ord(char) == 127 else char for char in text)


def columns(text):
    """The columns that a text takes in a terminal."""
    wide = {"W": 2, "F": 2}
    return sum(0 if unicodedata.combining(char) or unicodedata.category(char) == "Cf" else wide.get(unicodedata.east_asian_width(char), 1)
               for char in text)


def frame(data, name, at, to):
    """The place, its line and carets."""
    line, column = place_of(data, at)
    before = data[:at].decode("utf-8").removeprefix("\ufeff").split("\n")[-1]
    behind = data[at:].decode("utf-8", "replace").split("\n")[0]
    marked = data[at:to].decode("utf-8").split("\n")[0]
    left = ("..." if len(before) > MOST else "") + shown(before[-MOST:])
    right = shown(behind[:MOST]) + ("..." if len(behind) > MOST else "")
    pad = " " * len(str(line))
    carets = "^" * max(columns(shown(marked[:MOST])), 1)
    return f"{pad}--> {name}:{line}:{column}\n{pad} |\n{line} | {left}{right}\n{pad} | {' ' * columns(left)}{carets}"


def note_text(data, name, note):
    """The lines of a note."""
    level, words, span, lines = note
    if lines:
        return f"{level}: {words}\n" + "".join(f"        {line}\n" for line in lines)
    if span:
        return f"{level}: {words}\n{frame(data, name, *span)}\n"
    return f"  = {level}: {words}\n"


def in_lines(data, name, found):
    """The findings in one line each."""
    text = ""
    for span, breaks, title, label, _ in found:
        place = ":".join(map(str, (name, *place_of(data, span[0])))) if span else name
        text += f"{place}: {'error' if breaks else 'warning'}: {title}: {label}\n"
    return text


def explained(data, name, report, arms=None, short=False):
    """The whole text, and whether a finding breaks a build."""
    found = findings_of(data, report, arms)
    errors = sum(finding[1] for finding in found)
    if short or not found:
        return in_lines(data, name, found), errors > 0
    text = ""
    for span, breaks, title, label, notes in found:
        text += f"{'error' if breaks else 'warning'}: {title}\n"
        text += f"--> {name}\n  = note: {label}\n" if span is None else f"{frame(data, name, *span)} {label}\n"
        text += "".join(note_text(data, name, note) for note in notes) + "\n"
    return f"{text}errors: {errors}, warnings: {len(found) - errors}\n", errors > 0
