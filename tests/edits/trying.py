"""Tries batches of edits in a copy of a crate, and judges each by what the prover says of its own functions' goals.

Where a function needs no answers, a start of its proof (`--start`) tells whether goals are left open, and asks for no
proof of what the function calls. Else a check of the function (`--only`) tells it.
"""
import importlib
import os
import re
import shutil
import subprocess
import sys
import tempfile

import planning

REFUSED, OUTDATED, THROUGH, OTHER, UNREAD, GONE, UNSURE = (
    "refused",
    "refused by a proof that names what is gone",
    "let through",
    "refused only through another function",
    "does not compile",
    "its text is gone",
    "not tried",
)
# What is said where a name is gone, so that an error tells nothing of a contract.
NAMES = re.compile(
    r"has no field|is not in scope|has no `|was not admitted|is no name|operand is missing|expected the end"
    r"|cannot continue"
)
ERROR = re.compile(r"(?m)^(?:\./)?(\S+?):(\d+):\d+: error: (.*)$")
LINE = re.compile(r"(?m)^fn (\S+): (.*)$")
END = re.compile(r"(?m)^(?:only=\d+ proved|started)=\d+")


def toolchain():
    """The library of the kit's `rt`, which knows the words of a check."""
    home = os.path.dirname(os.path.realpath(shutil.which("rt")))
    if home not in sys.path:
        sys.path.insert(0, home)
    return importlib.import_module("rtlib")


class Check:
    """The words of a check of a crate: over its libraries where all are built and fit, and else over the sources."""

    def __init__(self, crate):
        self.library = toolchain()
        self.crate = self.library.Crate(os.path.join(planning.CRATES, crate), planning.TOP, {}, name=crate)
        self.is_over_sources = not all(below.is_built() for below in self.crate.below())

    def words(self):
        words = self.crate.words(["--jobs", "1"], keeps=False, as_source=self.is_over_sources)
        return [self.library.RATTLE, "check", *words]

    def said(self, more, folder):
        """What the check says in a folder; it goes over the sources once a library does not fit."""
        said = heard([*self.words(), *more], folder)
        if not self.is_over_sources and ("unusable-built-library" in said or self.library.STALE.search(said)):
            self.is_over_sources = True
            said = heard([*self.words(), *more], folder)
        return said


def heard(command, folder):
    """What a command says in a folder."""
    how = {"stdin": subprocess.DEVNULL, "stdout": subprocess.PIPE, "stderr": subprocess.STDOUT}
    return subprocess.run(command, cwd=folder, errors="replace", text=True, **how).stdout


def checked(check, sources, edits, flag):
    """What a check of the functions that the edits change says, in a copy of the crate with these edits, and the texts
    that these leave.
    """
    texts = planning.applied({}, sources.crate, [pair for edit in edits for pair in edit.pairs])[0]
    wanted = sorted({it.path for edit in edits for it in edit.changed})
    with tempfile.TemporaryDirectory(prefix="edits-") as room:
        for path, text in {**sources.texts, **texts}.items():
            os.makedirs(os.path.dirname(os.path.join(room, path)), exist_ok=True)
            with open(os.path.join(room, path), "w", encoding="utf-8") as file:
                file.write(text)
        said = check.said([word for name in wanted for word in (flag, name)], room)
    return said, texts


def owned(name, unit):
    """Whether the name that a check prints is of the function, or of a closure in it."""
    plain = name.replace("::fn::", "::")
    return plain == unit or plain.startswith(unit + "::")


def folders_of(path, sources):
    """The folders that a function's proof files may be in: that of the function or of its cycle of calls, and that of a
    function that calls itself.
    """
    parts = ["proofs", *sources.unit[path].split("::")]
    return "/".join(parts) + "/", "/".join([*parts[:-1], "+" + parts[-1]]) + "/"


def lines_of(function, text):
    """The numbers of the first and the last line of a function's body in its file."""
    return text.count("\n", 0, function.body[0]) + 1, text.count("\n", 0, function.body[1]) + 1


def own_errors(said, function, sources, text):
    """The errors in the function's own proof files or in its own body, each with whether a name is gone there."""
    first, last = lines_of(function, text)
    folders = folders_of(function.path, sources)
    for path, line, told in ERROR.findall(said):
        if path.startswith(folders) or (path == function.file and first <= int(line) <= last):
            yield f"{path}:{line}: {told}", bool(NAMES.search(re.sub(r"`[^`]*`", "", told)))


def function_now(function, sources, texts):
    """The same function where the edits have moved it."""
    for it in sources.functions_in(function.file, texts[function.file]):
        if it.path == function.path:
            return it
    return function


def signs(said, edit, sources, texts):
    """What refuses an edit in its own functions' goals, the names that are gone there, and what is said of these."""
    found, gone, told = [], [], []
    for function in edit.changed:
        members = [path for path, unit in sources.unit.items() if unit == sources.unit[function.path]]
        for name, line in LINE.findall(said):
            crate, _, name = name.partition("::")
            if crate == edit.crate and any(owned(name, path) for path in members):
                told.append(line)
                if re.search(r"`search` did not prove `", line):
                    found.append(f"{name}: {line}")
        now = function_now(function, sources, texts)
        for error, is_name in own_errors(said, now, sources, texts[function.file]):
            (gone if is_name else found).append(error)
    return found, gone, told


def verdict(said, edit, sources, texts):
    """What a check says of an edit, and why."""
    found, gone, told = signs(said, edit, sources, texts)
    if found:
        return REFUSED, found[0]
    if gone and "not proved" in told:
        return OUTDATED, gone[0]
    waits = any(f"has not tried the goals of `{edit.crate}::{it.path}`" in said for it in edit.changed)
    if told and not waits and all(line == "proved" for line in told):
        return THROUGH, "each function that it changes is proved"
    if told and not waits and all(line == "proved" or re.match(r"no proof: it calls `", line) for line in told):
        return OTHER, next(line for line in told if line != "proved")
    return UNSURE, "; ".join(told) or said[-300:].strip()


def start(said, edit):
    """What is said of an edit where the proofs of its functions were started, which asks for no proof of a callee."""
    left = [it for it in edit.changed if f"wrote ./proofs/{it.path.replace('::', '/')}/Answers.antt" in said]
    if left:
        return REFUSED, f"goals of {left[0].path} are left open"
    if all(f"`{it.key()}` needs no file" in said for it in edit.changed):
        return THROUGH, "no goal of a function that it changes is left open"
    return UNSURE, said[-300:].strip()


def judged(check, sources, edits, flag="--only"):
    """The verdict on each edit of a batch, and why; a batch of which an edit does not compile is halved."""
    said, texts = checked(check, sources, edits, flag)
    if END.search(said) and flag == "--start":
        return {edit: start(said, edit) for edit in edits}
    if END.search(said):
        return {edit: verdict(said, edit, sources, texts) for edit in edits}
    if len(edits) == 1:
        is_read = not re.search(r"\berror\[[\w-]+\]", said)
        return {edits[0]: (UNSURE if is_read else UNREAD, said.strip()[:300])}
    half = len(edits) // 2
    first, second = edits[:half], edits[half:]
    return {**judged(check, sources, first, flag), **judged(check, sources, second, flag)}


def settled(check, sources, edits, flag):
    """The same, where each edit that is not refused for sure is tried once more without others, by a check.

    Where its proof then names what is gone, it counts as refused, as `rt must-fail` has it. Where the check tells
    nothing, as at a limit of the prover, `rt must-fail` decides.
    """
    found = judged(check, sources, edits, flag)
    for edit in edits:
        if found[edit][0] in (OTHER, OUTDATED, UNSURE) or (flag == "--start" and found[edit][0] == THROUGH):
            found.update(judged(check, sources, [edit]))
        if found[edit][0] == OUTDATED:
            found[edit] = REFUSED, found[edit][1]
        if found[edit][0] == UNSURE:
            found.update(tried_alone([edit]))
    return found


def tried_alone(edits):
    """The verdicts of `rt must-fail` on edits of one crate, in a copy of it and of those below."""
    crate = edits[0].crate
    with tempfile.TemporaryDirectory(prefix="edits-") as room:
        for name in [crate, *below(crate)]:
            shutil.copytree(
                os.path.join(planning.CRATES, name),
                os.path.join(room, "crates", name),
                ignore=shutil.ignore_patterns("must-fail", "incremental"),
            )
        lines = [line for line in lines_of_crates() if os.path.isdir(os.path.join(room, "crates", line.split(":")[0].split()[0]))]
        with open(os.path.join(room, "crates.txt"), "w", encoding="utf-8") as file:
            file.write("\n".join(lines) + "\n")
        shutil.copy(os.path.join(planning.TOP, "HANDLES"), room)
        folder = os.path.join(room, "crates", crate, "must-fail")
        os.mkdir(folder)
        for edit in edits:
            shutil.copy(edit.path, folder)
        said = heard(["rt", "must-fail", crate], room)
    return {edit: verdict_alone(said, edit) for edit in edits}


def verdict_alone(said, edit):
    """What `rt must-fail` says of an edit."""
    name = os.path.basename(edit.path)
    told = next((it for it in said.split("\n") if "must-fail " in it and name in re.split(r"[ :/]", it)), said[-300:])
    if "refused, as it must be" in told:
        return REFUSED, told
    if "NOT REFUSED" in told:
        return THROUGH, told
    return (UNREAD if "BAD EDIT" in told else UNSURE), told


def lines_of_crates():
    with open(os.path.join(planning.TOP, "crates.txt"), encoding="utf-8") as file:
        return [line for line in file.read().split("\n") if ":" in line]


def below(crate):
    """The crates that a crate stands on."""
    uses = {line.split(":")[0].split()[0]: line.split(":")[1].split() for line in lines_of_crates()}
    found, left = [], list(uses[crate])
    while left:
        name = left.pop()
        if name in uses and name not in found:
            found.append(name)
            left += uses[name]
    return sorted(found)
