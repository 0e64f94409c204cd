"""Runs of programs that can neither take a machine's memory nor hold it."""
import os
import resource
import signal
from typing import NamedTuple

MEGABYTE = 1 << 20
# A run that waits in place of working ends after so many times its seconds, by the clock.
PATIENCE = 30


class Limits(NamedTuple):
    """What a run may take: seconds of processor time, and bytes of memory and of stack."""

    seconds: int
    memory: int
    stack: int


class Run(NamedTuple):
    """A run: seconds of processor time, peak memory in MB, status, and the path of what it wrote."""

    seconds: float
    memory: float
    status: int
    wrote: str

    def cut(self):
        """Whether the limit of time ended it."""
        return self.status in (-signal.SIGXCPU, -signal.SIGALRM, -signal.SIGKILL)

    def starved(self):
        """Whether it wanted more memory than it had."""
        return self.status in (6, 101, -signal.SIGABRT)

    def answered(self):
        """Whether it came to an answer."""
        return self.status in (0, 1)


def limited(command, limits, wrote, environment=None):
    """Runs a command within limits. What it writes to standard output is in the file of this path."""
    pid = os.fork()
    if pid == 0:
        os.dup2(os.open(os.devnull, os.O_WRONLY), 2)
        os.dup2(os.open(wrote, os.O_WRONLY | os.O_CREAT | os.O_TRUNC), 1)
        resource.setrlimit(resource.RLIMIT_STACK, (limits.stack, limits.stack))
        resource.setrlimit(resource.RLIMIT_AS, (limits.memory, limits.memory))
        resource.setrlimit(resource.RLIMIT_CPU, (limits.seconds, limits.seconds + 1))
        signal.alarm(PATIENCE * limits.seconds)
        os.execvpe(command[0], command, os.environ | (environment or {}))
    _, status, usage = os.wait4(pid, 0)
    status = os.waitstatus_to_exitcode(status)
    return Run(usage.ru_utime + usage.ru_stime, usage.ru_maxrss / 1024, status, wrote)


def least(runs):
    """Of some runs the least time, with the most memory."""
    best = min(runs, key=lambda run: run.seconds)
    return best._replace(memory=max(run.memory for run in runs))


RUSTC = [
    "rustc", "--edition", "2024", "--crate-type", "lib", "-Zno-codegen", "--emit=metadata", "--error-format=short",
    "-A", "warnings", "--force-warn", "unreachable_patterns", "--force-warn", "overlapping_range_endpoints",
]
RUSTC_LIMITS = {"memory": 6 << 30, "stack": 8 * MEGABYTE}
# A function that guards call. The program takes no file with it, and needs none.
GUARD = "pub fn guard() -> bool { true }\n"


def rustc(source, seconds, folder, *more):
    """Runs rustc on a source: its front end with the two lints that matchcheck has, no code, no other warning."""
    wrote = os.path.join(folder, "rustc.out")
    command = [*RUSTC, *more, "-o", os.path.join(folder, "rustc.rmeta"), source]
    return limited(command, Limits(seconds, **RUSTC_LIMITS), wrote, {"RUSTC_BOOTSTRAP": "1"})
