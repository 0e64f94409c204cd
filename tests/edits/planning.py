"""Reads edits, finds which functions each changes, and joins edits of different functions into batches."""
import os
import sys

HERE = os.path.dirname(os.path.abspath(__file__))
TOP = os.path.dirname(os.path.dirname(HERE))
CRATES = os.path.join(TOP, "crates")
sys.dont_write_bytecode = True
sys.path.insert(0, os.path.join(TOP, "tools"))
import functions  # noqa: E402

CLAUSES = ("requires", "ensures", "ghost")
# The most edits of one batch: where one does not compile, its batch is halved.
MOST = 24


class Edit:
    """An edit of a crate: its replacements, the texts that it leaves, and the functions whose bodies it changes."""

    def __init__(self, crate, path):
        self.crate, self.path = crate, path
        self.name = f"{crate}/{os.path.basename(path)[: -len('.edit')]}"
        with open(path, encoding="utf-8") as file:
            self.text = file.read()
        self.pairs = pairs_of(self.text)
        self.texts, self.gone = applied({}, crate, self.pairs)
        self.changed = ()
        self.odd = ""

    def find(self, sources):
        """Finds the functions that it changes, or says why it is tried alone."""
        changed = []
        for path, text in self.texts.items():
            found = path.endswith(".rt") and changed_bodies(sources, path, text)
            if not found:
                self.odd = f"it changes more of {path} than bodies of functions"
                return
            changed += found
        self.changed = tuple(changed)
        if any("ensures" not in it.signature and not it.trait for it in changed):
            self.odd = "a function that it changes has no clause of its own"


class Sources:
    """The texts and functions of a crate, what each function calls, and which stand in one cycle of calls."""

    def __init__(self, crate):
        self.crate, self.texts = crate, self.texts_of(crate)
        code = {path: text for path, text in self.texts.items() if path.startswith("src/") and path.endswith(".rt")}
        self.homes = functions.homes(code)
        self.all = []
        for path in sorted(code):
            self.all += self.functions_in(path, code[path])
        self.unit = {it.path: unit_of(it) for it in self.all}
        self.below = closure(self.calls())

    def functions_in(self, path, text):
        """The functions of a text of one of the crate's files."""
        return functions.Reader(self.crate, path, text, self.homes).read()

    @staticmethod
    def texts_of(crate):
        """The texts of a crate that a check reads, by their paths."""
        folder, found = os.path.join(CRATES, crate), {}
        for part in ("src", "specs", "proofs"):
            for where, _, names in os.walk(os.path.join(folder, part)):
                for name in names:
                    path = os.path.relpath(os.path.join(where, name), folder)
                    with open(os.path.join(where, name), encoding="utf-8") as file:
                        found[path] = file.read()
        return found

    def calls(self):
        """The units that each unit may call, by the names in its functions' bodies."""
        by_name = {}
        for it in self.all:
            by_name.setdefault(it.name, []).append(it)
        found = {unit: set() for unit in self.unit.values()}
        for caller in self.all:
            for owner, dot, name in caller.calls:
                for callee in by_name.get(name, ()):
                    if may_call(caller, callee, owner, dot):
                        found[self.unit[caller.path]].add(self.unit[callee.path])
        return found

    def units(self, edit):
        return {self.unit[it.path] for it in edit.changed}

    def can_start(self, edit):
        """Whether the proof of each function that an edit changes can be started: no cycle, and no answers needed."""
        for it in edit.changed:
            folder = "proofs/" + it.path.replace("::", "/") + "/"
            alone = "/".join([*folder.split("/")[:-2], "+" + it.name, ""])
            if it.cycle or any(path.startswith(alone) for path in self.texts):
                return False
            if any(path.startswith(folder) and path != folder + "Invariants.antt" for path in self.texts):
                return False
        return True


def unit_of(function):
    """The path of a function, or of its cycle of calls, as the folder of its proof has it."""
    if not function.cycle:
        return function.path
    return "::".join(part for part in (function.module(), f"+{function.cycle}") if part)


def may_call(caller, callee, owner, dot):
    """Whether these names may stand for a call of this function."""
    if dot:
        return bool(callee.owner)
    if callee.owner:
        return owner in (callee.owner, callee.trait) or (owner == "Self" and caller.owner == callee.owner)
    return owner == "" or owner in ("crate", "self", "super") or callee.path.split("::")[-2:-1] == [owner]


def closure(calls):
    """All units that each unit comes to by calls."""
    found = {}
    for unit in calls:
        seen, left = set(), list(calls[unit])
        while left:
            callee = left.pop()
            if callee not in seen:
                seen.add(callee)
                left += calls[callee]
        found[unit] = seen
    return found


def pairs_of(text):
    """The replacements of an edit: the file, the old text and the new one."""
    found, path, old = [], "", ""
    for line in text.split("\n"):
        word, _, rest = line.partition(":")
        rest = rest.removeprefix(" ")
        if word == "file":
            path = rest.strip()
        elif word == "old":
            old = rest
        elif word == "new":
            found.append((path, old, rest))
    return found


def applied(texts, crate, pairs):
    """The texts with these replacements made, beside those given, and what is wrong with a replacement."""
    texts = dict(texts)
    for path, old, new in pairs:
        if path not in texts:
            file = os.path.join(CRATES, crate, path)
            if not os.path.isfile(file):
                return {}, f"there is no file {path}"
            with open(file, encoding="utf-8") as it:
                texts[path] = it.read()
        if not old or texts[path].count(old) != 1:
            return {}, f"a text that it replaces does not stand once in {path}"
        texts[path] = texts[path].replace(old, new)
    return texts, "" if pairs else "it replaces nothing"


def outside(text, found):
    """The text without the bodies of its functions, and the words of clauses inside these."""
    rest, at = [], 0
    for it in found:
        if it.body[0] >= at:
            rest.append(text[at : it.body[0]])
            inside = functions.tokens(text[it.body[0] : it.body[1]])
            rest.append([token.text for token in inside if token.text in CLAUSES])
            at = it.body[1]
    return rest + [text[at:]]


def changed_bodies(sources, path, after):
    """The functions of a file whose bodies differ from those of another text of it, where nothing else does."""
    before = sources.texts[path]
    try:
        old, new = sources.functions_in(path, before), sources.functions_in(path, after)
    except ValueError:
        return []
    if outside(before, old) != outside(after, new):
        return []
    return [one for one, other in zip(old, new) if before[slice(*one.body)] != after[slice(*other.body)]]


def fits(batch, edit, sources, may_call):
    """Whether an edit may stand in a batch: no function that it changes is changed there.

    Without `may_call` none of its functions calls one that is changed there, or is called by one.
    """
    mine = sources.units(edit)
    for other in batch:
        theirs = sources.units(other)
        is_above = any(sources.below[unit] & theirs for unit in mine)
        is_below = any(sources.below[unit] & mine for unit in theirs)
        if mine & theirs or (not may_call and (is_above or is_below)):
            return False
    return applied({}, edit.crate, [pair for it in [*batch, edit] for pair in it.pairs])[1] == ""


def batches(edits, sources, may_call=False):
    """The edits in batches, each as large as the order of the edits allows."""
    found = []
    for edit in edits:
        for batch in found:
            if len(batch) < MOST and fits(batch, edit, sources, may_call):
                batch.append(edit)
                break
        else:
            found.append([edit])
    return found
