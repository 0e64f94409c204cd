"""Tries the edits of `control`, of which each stands for an answer that a run can give.

A line of `control/expected` has an edit, what is said of it where the proofs are started, in one check with the others
of its crate, and alone where another function decided there.
"""
import os

import planning
import trying

FOLDER = os.path.join(planning.HERE, "control")


def expected():
    """The edits with what is to be said of each."""
    with open(os.path.join(FOLDER, "expected"), encoding="utf-8") as file:
        return dict(line.split(": ") for line in file.read().split("\n") if line)


def said_of(crate, names):
    """What is said of each of these edits of a crate where proofs are started, in one check, and in a check alone."""
    edits = [planning.Edit(crate, os.path.join(FOLDER, f"{name}.edit")) for name in names]
    sources, check = planning.Sources(crate), trying.Check(crate)
    found = {edit.name: [trying.GONE] for edit in edits if edit.gone}
    there = [edit for edit in edits if not edit.gone]
    for edit in there:
        edit.find(sources)
    together = trying.judged(check, sources, there)
    read = [edit for edit in there if together[edit][0] != trying.UNREAD]
    started = trying.judged(check, sources, read, "--start")
    for edit in there:
        found[edit.name] = [started[edit][0]] if edit in started else []
        found[edit.name].append(together[edit][0])
        if together[edit][0] == trying.OTHER:
            found[edit.name].append(trying.judged(check, sources, [edit])[edit][0])
    return {name: ", ".join(said) for name, said in found.items()}


def shown():
    """Prints what is said of each edit, and counts those of which it is what is expected and the others."""
    wanted, found = expected(), {}
    for crate in sorted({name.split("/")[0] for name in wanted}):
        found.update(said_of(crate, [name for name in wanted if name.split("/")[0] == crate]))
    for name, word in wanted.items():
        print(f"{name}: {found[name]}" + ("" if found[name] == word else f", and not: {word}"))
    right = sum(found[name] == word for name, word in wanted.items())
    return right, len(wanted) - right
