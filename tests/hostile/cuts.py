"""A realistic file that is cut after each of its bytes, or has a byte left out or in the place of another."""
import os

from running import CLEAN, REFUSED, TOP, is_whole, refusal, report, run

SOURCE = os.path.join(TOP, "tests/sources/reports/expression_language_01.rs")
# Bytes that begin something else or nothing.
OTHERS = b"\xff\0\"{'/"


def write(folder, data):
    with open(os.path.join(folder, "f.rs"), "wb") as file:
        file.write(data)


def one(tried, program, folder, what, name, data, mode):
    write(folder, data)
    status, written = run(program, [mode, "f.rs"], folder)
    tried.add(what, f"status {status}", is_whole(status, written, len(data)), name)
    return status, written


def try_all(tried, program, folder):
    with open(SOURCE, "rb") as file:
        whole = file.read()
    with open(SOURCE[:-3] + ".json", "rb") as file:
        wanted = file.read()
    named = {
        31: (CLEAN, report()),
        41: (REFUSED, refusal(6, "syntax", 0, 32)),
        len(whole): (1, wanted),
    }
    for length in range(len(whole) + 1):
        name, cut = f"{length} bytes", whole[:length]
        found = one(tried, program, folder, "`check` on the file cut after each byte", name, cut, "check")
        if length in named:
            tried.same("cuts whose output is known", name, found, named[length])
        one(tried, program, folder, "`trees` on the file cut after each byte", name, cut, "trees")
    for place in range(len(whole)):
        name = f"byte {place}"
        left = whole[:place] + whole[place + 1 :]
        one(tried, program, folder, "`check` on the file with one byte left out", name, left, "check")
        other = OTHERS[place % len(OTHERS) : place % len(OTHERS) + 1]
        changed = whole[:place] + other + whole[place + 1 :]
        one(tried, program, folder, "`check` on the file with one byte in the place of another", name, changed, "check")
