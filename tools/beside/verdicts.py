"""The verdicts of the checker and of rustc on files that hold one match each."""
import bisect
import json
import os
import pathlib
import subprocess
import tempfile
from concurrent.futures import ThreadPoolExecutor
from typing import NamedTuple, Optional

SECONDS = 60
# The checker judges bindings by this edition, and rustc reads by it: most crates at hand were written for it.
EDITION = "2021"
HEAD = """#![feature(never_type)]
#![allow(unused, nonstandard_style, private_interfaces, ambiguous_glob_reexports)]
#![warn(unreachable_patterns, overlapping_range_endpoints)]
fn guard() -> bool { true }
"""
# Faults of moves, borrows and lifetimes, of which no pattern judge knows.
BORROWS = {
    "E0106", "E0382", "E0499", "E0502", "E0505", "E0506", "E0507", "E0508", "E0509", "E0515", "E0594", "E0596",
    "E0597", "E0716",
}


class Verdict(NamedTuple):
    """What a judge says of a match: why it refuses it, or the rest. Places are bytes of the file."""

    refused: Optional[str]
    is_exhaustive: bool = True
    unreachable: frozenset = frozenset()
    overlaps: frozenset = frozenset()

    def lines(self):
        """The verdict in words, for people."""
        if self.refused:
            return [f"refused: {self.refused}"]
        found = ["exhaustive" if self.is_exhaustive else "not exhaustive"]
        found += [f"unreachable at byte {at}" for at in sorted(self.unreachable)]
        return found + [f"ranges overlap at bytes {one} and {other}" for one, other in sorted(self.overlaps)]


class Judges:
    """The two judges: a built checker, and rustc."""

    def __init__(self, program, rustc="rustc"):
        self.program, self.rustc = program, rustc

    def ours(self, paths):
        """What the checker says of each file."""
        with ThreadPoolExecutor(max(1, (os.cpu_count() or 2) // 2)) as pool:
            return list(pool.map(self.our_one, paths))

    def our_text(self, text):
        """What the checker says of a text."""
        with tempfile.NamedTemporaryFile("w", suffix=".rs", encoding="utf-8") as file:
            file.write(text)
            file.flush()
            return self.our_one(file.name)

    def our_one(self, path):
        command = [self.program, "check", str(path), "--edition", EDITION]
        ran = subprocess.run(command, capture_output=True, stdin=subprocess.DEVNULL, timeout=SECONDS)
        if ran.returncode not in (0, 1, 3):
            return Verdict(f"the checker ended with status {ran.returncode}")
        report = json.loads(ran.stdout)
        entry = report if "refused" in report else report["functions"][0]
        if "refused" in entry:
            return Verdict(f"rule {entry['refused']['rule']} ({entry['refused']['name']})")
        unreachable = frozenset(it["at"] for it in entry["unreachable"])
        overlaps = frozenset((it["at"], it["with"]) for it in entry["overlaps"])
        return Verdict(None, entry["exhaustive"], unreachable, overlaps)

    def theirs(self, texts):
        """What rustc says of each text, in one run, but for texts with an error that stops it."""
        verdicts, left = {}, list(range(len(texts)))
        while left:
            files = Together([texts[number] for number in left])
            found = files.judged(self.rustc)
            refused = {number: verdict for number, verdict in zip(left, found) if verdict.refused}
            verdicts.update(refused or dict(zip(left, found)))
            left = [number for number in left if number not in verdicts]
        return [verdicts[number] for number in range(len(texts))]


class Together:
    """Texts as modules of one program, so that one run of rustc judges all."""

    def __init__(self, texts):
        self.starts, pieces, length = [], [HEAD], len(HEAD.encode())
        for number, text in enumerate(texts):
            before = f"mod m{number} {{\n"
            self.starts.append(length + len(before))
            pieces.append(f"{before}{text}\n}}\n")
            length += len(pieces[-1].encode())
        self.text = "".join(pieces)
        self.refused = {}
        self.lacking = set()
        self.unreachable = [set() for _ in texts]
        self.overlaps = [set() for _ in texts]

    def owner(self, at):
        """The number of the text that has this byte."""
        return max(bisect.bisect_right(self.starts, at) - 1, 0)

    def judged(self, rustc):
        """What rustc says of each text. Where it refuses some, the verdicts on the others may lack findings."""
        for message in messages(rustc, self.text):
            spans = message["spans"]
            if spans:
                self.take(message, [it["byte_start"] for it in spans if it["is_primary"]], spans)
        everything = zip(range(len(self.starts)), self.unreachable, self.overlaps)
        return [
            Verdict(self.refused[number]) if number in self.refused
            else Verdict(None, number not in self.lacking, frozenset(unreachable), frozenset(overlaps))
            for number, unreachable, overlaps in everything
        ]

    def take(self, message, primary, spans):
        """Takes a message over that has places."""
        code = (message["code"] or {}).get("code")
        number = self.owner(primary[0])
        start = self.starts[number]
        if code in BORROWS:
            return
        if code == "E0004":
            self.lacking.add(number)
        elif message["level"] == "error":
            self.refused.setdefault(number, f"{code or 'error'}: {message['message']}")
        elif code == "unreachable_patterns":
            self.unreachable[number].update(at - start for at in primary)
        elif code == "overlapping_range_endpoints":
            others = [it["byte_start"] for it in spans if not it["is_primary"]]
            self.overlaps[number].update(tuple(sorted((at - start, primary[0] - start))) for at in others)


def messages(rustc, text):
    """What rustc says of a program, message by message."""
    with tempfile.TemporaryDirectory() as folder:
        path = pathlib.Path(folder) / "beside.rs"
        path.write_text(text, encoding="utf-8")
        command = [rustc, path.name, "--crate-type=lib", "--emit=metadata", "--error-format=json"]
        command.append(f"--edition={EDITION}")
        # `!` as a type is only open to programs that ask for it.
        asked = {**os.environ, "RUSTC_BOOTSTRAP": "1"}
        ran = subprocess.run(command, cwd=folder, env=asked, capture_output=True, stdin=subprocess.DEVNULL)
    lines = ran.stderr.decode("utf-8", "replace").splitlines()
    found = [json.loads(line) for line in lines if line.startswith("{")]
    if ran.returncode not in (0, 1):
        raise RuntimeError(f"rustc ended with status {ran.returncode}: {lines[-1] if lines else ''}")
    return found
