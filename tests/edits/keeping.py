"""Keeps which edits were refused, by the sums of all that was read, so that a later run tries only what changed."""
import functools
import hashlib
import os
import shutil

import planning
import trying


def sum_of(*texts):
    """The sum of these texts, in order."""
    made = hashlib.sha256()
    for text in texts:
        data = text.encode("utf-8", "surrogateescape")
        made.update(b"%d " % len(data) + data)
    return made.hexdigest()


@functools.lru_cache(maxsize=None)
def crate_sum(crate):
    """The sum of all files of a crate that a check reads, and of the crates that it stands on."""
    texts = planning.Sources.texts_of(crate)
    below = [crate_sum(name) for name in trying.below(crate)]
    return sum_of(*[word for path in sorted(texts) for word in (path, texts[path])], *below)


@functools.lru_cache(maxsize=None)
def kit_sum():
    """What names the kit: the size and the time of its prover, and the scripts that judge."""
    prover = os.path.join(os.path.dirname(os.path.realpath(shutil.which("rt"))), "rattle")
    told = os.stat(prover)
    scripts = []
    finder = os.path.join(planning.TOP, "tools", "functions.py")
    for path in (*(os.path.join(planning.HERE, name) for name in ("planning.py", "trying.py")), finder):
        with open(path, encoding="utf-8") as file:
            scripts.append(file.read())
    return sum_of(str(told.st_size), str(told.st_mtime_ns), *scripts)


def folder():
    """The folder beside the kit, or one of this checkout where none can be made there."""
    kit = os.path.dirname(os.path.dirname(os.path.realpath(shutil.which("rt"))))
    for path in (f"{kit}-edits", os.path.join(planning.HERE, "out")):
        try:
            os.makedirs(path, exist_ok=True)
        except OSError:
            continue
        if os.access(path, os.W_OK):
            return path
    return None


class Kept:
    """The edits that were refused: a file of the name of its sum for each."""

    def __init__(self, is_anew, is_alone):
        self.folder, self.is_anew = None if is_alone else folder(), is_anew

    def path(self, edit):
        return os.path.join(self.folder, sum_of(kit_sum(), crate_sum(edit.crate), edit.crate, edit.text))

    def has(self, edit):
        return not self.is_anew and self.folder is not None and os.path.exists(self.path(edit))

    def add(self, edit, is_refused):
        if is_refused and self.folder is not None:
            with open(self.path(edit), "w", encoding="utf-8") as file:
                file.write(edit.name + "\n")
