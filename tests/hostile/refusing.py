"""Runs with calls of the C library refused, by a library that is loaded before it."""
import os
import shutil
import subprocess

from running import HERE, run

LAST = 1 << 40


class Refusing:
    """Makes the library in a folder. `library` is None where there is no C compiler, and then nothing is tried."""

    def __init__(self, folder):
        compiler = shutil.which("cc") or shutil.which("gcc") or shutil.which("clang")
        self.library = None
        if compiler is None:
            print("tests/hostile: no C compiler, so no call of the C library is refused")
            return
        self.library = os.path.join(folder, "refusing.so")
        command = [compiler, "-O1", "-shared", "-fPIC", "-o", self.library, os.path.join(HERE, "refusing.c")]
        subprocess.run(command, check=True)

    def run(self, program, words, folder, kind, first, last, **how):
        """A run in which the calls of this kind from the one number to the other are refused: its status and what it
        wrote, and how many calls were refused."""
        told, tells = os.pipe()
        environment = {"REFUSE": f"{kind} {first} {last}", "REFUSE_TELLS": str(tells), "LD_PRELOAD": self.library}
        try:
            found = run(program, words, folder, env=environment, pass_fds=(tells,), **how)
        finally:
            os.close(tells)
        os.set_blocking(told, False)
        refused = 0
        while piece := os.read(told, 65_536):
            refused += len(piece)
        os.close(told)
        return found, refused

    def in_turn(self, program, words, folder, kind, from_there_on, **how):
        """Runs in which one call alone is refused, or each from there on, its number counted up until none was refused."""
        number = 1
        while True:
            found, refused = self.run(program, words, folder, kind, number, LAST if from_there_on else number, **how)
            yield number, found, refused
            if not refused:
                return
            number += 1
