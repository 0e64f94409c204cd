"""Runs of the built program, and the count of what was tried."""
import json
import os
import subprocess
from collections import Counter

SECONDS = 120
CLEAN, FOUND, WORDS, REFUSED, READ_FAULT, WRITE_FAULT, NO_MEMORY = range(7)
HERE = os.path.dirname(os.path.abspath(__file__))
TOP = os.path.dirname(os.path.dirname(HERE))


def run(program, words, folder, **how):
    """The status and what is written. Below 0 the status is the signal that ended the program."""
    how.setdefault("stdin", subprocess.DEVNULL)
    how.setdefault("stdout", subprocess.PIPE)
    try:
        ran = subprocess.run([program, *words], cwd=folder, stderr=subprocess.PIPE, timeout=SECONDS, **how)
    except subprocess.TimeoutExpired:
        return f"none in {SECONDS} seconds", b""
    if ran.stderr:
        return f"{ran.returncode}, with {ran.stderr[:100]!r} on standard error", ran.stdout
    return ran.returncode, ran.stdout


def clean(name="f"):
    """The report on one function that wants nothing."""
    return report({"exhaustive": True, "name": name, "overlaps": [], "unreachable": [], "witnesses": []})


def report(*entries):
    return line({"functions": list(entries)})


def refusal(rule, name, item=None, at=None, arm=None):
    return line({"refused": {"arm": arm, "at": at, "item": item, "name": name, "rule": rule}})


def line(tree):
    return (json.dumps(tree, ensure_ascii=False, separators=(",", ":"), sort_keys=True) + "\n").encode()


def is_whole(status, written, length):
    """What is wrong with a run that is to tell of a whole file of so many bytes, or None."""
    if status not in (CLEAN, FOUND, REFUSED):
        return f"it ended with {status}"
    if written.count(b"\n") != 1 or not written.endswith(b"\n"):
        return f"it wrote {written[:200]!r}, which is not one line"
    try:
        tree = json.loads(written)
    except ValueError:
        return f"it wrote {written[:200]!r}, which is no JSON"
    if line(tree) != written:
        return f"it wrote {written[:200]!r}, whose keys or blanks are others"
    if status == REFUSED:
        at = tree.get("refused", {}).get("at", 0)
        fits = "refused" in tree and (at is None or at <= length)
    else:
        fine = all(entry.get("exhaustive") for entry in tree.get("functions", [{}]))
        fits = "functions" in tree and fine == (status == CLEAN)
    return None if fits else f"it wrote {written[:200]!r} with status {status}"


class Tried:
    """Counts what was tried, by what it was, and how it ended."""

    def __init__(self):
        self.rows = {}
        self.failed = 0

    def add(self, what, ending, wrong=None, name=""):
        """One run: what was tried, how it ended, what is wrong with that."""
        self.rows.setdefault(what, Counter())[ending if wrong is None else "otherwise"] += 1
        if wrong is not None:
            self.failed += 1
            print(f"{what}{', ' * bool(name)}{name}: {wrong}", flush=True)

    def same(self, what, name, got, wanted, ending=None):
        """One run that is to have this status and this output."""
        wrong = None
        if got != wanted:
            wrong = f"it ended with {got[0]} and wrote {got[1][:300]!r}, not with {wanted[0]} and {wanted[1][:300]!r}"
        self.add(what, ending or f"status {got[0]}", wrong, name)

    def table(self):
        """The rows as a table in Markdown."""
        yield "| Tried | Runs | How they ended |\n|---|---|---|"
        for what, endings in self.rows.items():
            shown = ", ".join(f"{ending}: {n}" for ending, n in sorted(endings.items()))
            yield f"| {what} | {sum(endings.values())} | {shown} |"

    def end(self):
        """The last line, and the exit status."""
        tried = sum(sum(endings.values()) for endings in self.rows.values())
        print(f"tests/hostile: {tried - self.failed} passed, {self.failed} failed")
        return 1 if self.failed or not tried else 0
