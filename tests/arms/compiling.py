"""What rustc says of a match with the arms in it."""
import json
import os
import shutil
import subprocess
import tempfile

RUSTC = shutil.which("rustc")
HEAD = "#![feature(never_type)]\nfn g() -> bool { true }\n"
# Faults of moves and borrows, which come with a match that rustc could read.
BORROWS = {"E0382", "E0499", "E0502", "E0505", "E0506", "E0507", "E0508", "E0509", "E0515", "E0594", "E0596", "E0716"}


def can_read(data, options):
    """Whether this source may mean the same to rustc: later variants and widths of its own it sees otherwise."""
    return RUSTC is not None and options.width is None and b"non_exhaustive" not in data


def declarations(data, places, tokens):
    """The source without its functions; references in it live for ever, since rustc wants lifetimes there."""
    pieces, at = [], 0
    gone = [(place.start, place.stop) for place in places]
    for number, token in enumerate(tokens):
        if any(start <= token.start < stop for start, stop in gone):
            continue
        named = number + 1 < len(tokens) and tokens[number + 1].kind == "lifetime"
        text = token.text.replace("&&", "&'static &")
        pieces.append(text + "'static" if text.endswith("&") and not named else text)
    return " ".join(pieces)


def program(data, places, tokens, place, texts):
    """A program of the function alone, with the arms, and the offset of the first of them."""
    arms = ""
    for start, end, guarded in place.arms:
        pattern = data[start:end].decode("utf-8")
        arms += f"  {pattern} {'if g() ' if guarded else ''}=> {{}}\n"
    head = f"{HEAD}{declarations(data, places, tokens)}\nfn tried({place.parameter}) {{ match {place.scrutinee} {{\n{arms}"
    added = "".join(f"  {text} => {{}}\n" for text in texts)
    return head + added + "} }\n", len(head.encode("utf-8"))


def messages(text, edition):
    """What rustc says of a program."""
    with tempfile.TemporaryDirectory() as folder:
        path = os.path.join(folder, "tried.rs")
        with open(path, "w", encoding="utf-8") as file:
            file.write(text)
        command = [RUSTC, path, "--crate-type=lib", "--emit=metadata", f"--edition={edition}", "--error-format=json"]
        ran = subprocess.run(command, capture_output=True, cwd=folder, env={**os.environ, "RUSTC_BOOTSTRAP": "1"}, timeout=60)
    return [json.loads(line) for line in ran.stderr.decode("utf-8").split("\n") if line.startswith("{")]


def code_of(message):
    return (message.get("code") or {}).get("code")


def says(text, first, edition):
    """What is wrong with the match to rustc, "" where nothing is, and None where rustc cannot read it."""
    found = messages(text, edition)
    errors = {code_of(message) for message in found if message["level"] == "error" and message["spans"]}
    if "E0004" in errors:
        return "rustc wants more arms"
    if errors - BORROWS:
        return None
    for message in found:
        spans = [span["byte_start"] for span in message["spans"] if span["is_primary"]]
        if code_of(message) == "unreachable_patterns" and any(start >= first for start in spans):
            return "rustc reaches not every added arm"
    return ""
