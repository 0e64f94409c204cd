#!/usr/bin/env python3
"""Times the program on files whose declarations are extreme in one way each.

    bench/table/run.py [PROGRAM]

PROGRAM is the built program, by default crates/matchcheck/out/matchcheck. Writes each source, whole and with half as many
pieces, into a folder for temporary files, runs `check` on both in a stack of 1 MB, and prints for each source its bytes,
what came out, the least time of several runs, how much longer the whole takes than the half, and the memory. Times are of
the whole program, lexer and parser included; bench/lexer and bench/parser have these alone. The last line says how many
sources met the goal; the exit status is 1 where one missed it.
"""
import json
import os
import pathlib
import resource
import sys
import tempfile
import time

HERE = pathlib.Path(__file__).resolve().parent
ROOT = HERE.parent.parent
OUT = pathlib.Path(tempfile.gettempdir()) / "matchcheck-bench" / "table"
RUNS = 3
STACK = 1024 * 1024
# How much longer a source may take than one of half as many pieces, and from how many milliseconds on this is asked.
GROWTH = 2.5
SHORTEST = 20


def each(line):
    """As many lines, each with its number."""
    return lambda count: "".join(line(i, count) for i in range(count))


def one_enum(behind):
    """An enum of as many variants, and what stands behind it."""
    return lambda count: "enum E{" + ",".join("V%d" % i for i in range(count)) + "}\n" + behind(count)


def matched(count):
    """A function with an arm for each variant by its bare name with brackets."""
    return "fn f(x:E){match x{" + ",".join("V%d()=>1" % i for i in range(count)) + "}}\n"


def listed(count):
    return "use E::{" + ",".join("V%d" % i for i in range(count)) + "};\n" + matched(count)


def by_glob(count):
    return "use E::*;\n" + matched(count)


def chain(last):
    """Structs of which each holds the next."""
    return lambda count: "".join("struct S%d(u8,S%d);\n" % (i, i + 1) for i in range(count - 1)) + "struct S%d%s\n" % (count - 1, last)


def back_chain(count):
    """Structs of which each holds the one before."""
    return "struct S0(!);\n" + "".join("struct S%d(S%d);\n" % (i, i - 1) for i in range(1, count))


def many_globs(count):
    """Enums with one variant of their own and one that all have, and a glob of each; each variant is looked up."""
    enums = "".join("enum E%d{A%d,B}\nuse E%d::*;\n" % (i, i, i) for i in range(count))
    return enums + "fn f(x:u8){match x{" + ",".join("A%d()=>1,B()=>2" % i for i in range(count)) + "}}\n"


def levels(wrap):
    """Types of 64 levels, no two of them equal."""
    def line(i, count):
        inner = "[u8;%d]" % i
        for _ in range(61):
            inner = wrap(inner)
        return "struct S%d(%s);\n" % (i, inner)
    return each(line)


# What each source shows, its pieces, and the source of so many.
SOURCES = {
    "structs": (100_000, each(lambda i, n: "struct S%d(u8,&[S%d],Box<S%d>);\n" % (i, (i + 1) % n // 2, (i * 7) % n))),
    "enums and functions": (50_000, each(lambda i, n: "enum E%d{A,B(u8)}\nfn f%d(x:&E%d){match x{E%d::A=>1,E%d::B(_)=>2}}\n" % (i, i, i, i, i))),
    "variants": (500_000, one_enum(lambda n: "fn f(x:E){match x{_=>1}}\n")),
    "variants with fields": (500_000, lambda n: "enum E{" + ",".join("V%d(Option<E0>,!)" % i for i in range(n)) + "}enum E0{}\n"),
    "variants by a list": (500_000, one_enum(listed)),
    "variants by a glob": (500_000, one_enum(by_glob)),
    "a glob of each enum": (100_000, many_globs),
    "a chain": (50_000, chain("(u8);")),
    "a chain to nothing": (50_000, chain("(!);")),
    "a chain from nothing": (50_000, back_chain),
    "a chain that ends in itself": (50_000, lambda n: chain("(S0);")(n)),
    "a chain of references": (50_000, lambda n: each(lambda i, m: "struct S%d(&S%d);\n" % (i, (i + 1) % m))(n)),
    "levels of arrays": (20_000, levels(lambda t: "[%s;1]" % t)),
    "levels of references": (50_000, levels(lambda t: "&%s" % t)),
    "levels of results": (20_000, levels(lambda t: "Result<%s,!>" % t)),
    "fields": (5_000, each(lambda i, n: "struct S%d{%s}\n" % (i, ",".join("a%d:u8" % k for k in range(256))))),
    "names that mean nothing": (200_000, each(lambda i, n: "struct S%d(X%d);\n" % (i, i))),
    "listed names twice": (500_000, lambda n: "use E::{" + ",".join("V%d" % (i % (n - 1)) for i in range(n)) + "};\n"),
}


def run(program, path):
    """What came out, the milliseconds and the kilobytes of one run."""
    report = OUT / "report.json"
    start = time.monotonic()
    pid = os.fork()
    if pid == 0:
        os.dup2(os.open(report, os.O_WRONLY | os.O_CREAT | os.O_TRUNC), 1)
        resource.setrlimit(resource.RLIMIT_STACK, (STACK, STACK))
        os.execv(program, [program, "check", str(path)])
    _, status, usage = os.wait4(pid, 0)
    took = (time.monotonic() - start) * 1000
    if os.waitstatus_to_exitcode(status) not in (0, 1, 3):
        raise SystemExit("%s ended with status %d" % (path, status))
    return outcome(json.loads(report.read_text())), took, usage.ru_maxrss


def outcome(report):
    """The rule by which the file is refused, or how many functions are in the report."""
    if "refused" in report:
        return "rule %d" % report["refused"]["rule"]
    return "%d functions" % len(report["functions"])


def least(program, paths):
    """For each file the run of several that took least; the files are taken in turn."""
    runs = [[run(program, path) for path in paths] for _ in range(RUNS)]
    return [min(of_one, key=lambda result: result[1]) for of_one in zip(*runs)]


def main():
    program = sys.argv[1] if len(sys.argv) > 1 else str(ROOT / "crates" / "matchcheck" / "out" / "matchcheck")
    OUT.mkdir(parents=True, exist_ok=True)
    print("| source | bytes | outcome | ms | growth from half | MB | bytes of memory a byte |")
    print("|---|---|---|---|---|---|---|")
    missed = []
    for name, (count, source) in SOURCES.items():
        paths = [OUT / "half.txt", OUT / "whole.txt"]
        for path, pieces in zip(paths, (count // 2, count)):
            path.write_text(source(pieces))
        half, whole = least(program, paths)
        growth = whole[1] / half[1] if half[1] >= SHORTEST else None
        shown = "under %d ms" % SHORTEST if growth is None else "%.2f" % growth
        size = paths[1].stat().st_size
        print("| %s | %d | %s | %d | %s | %d | %.0f |" % (name, size, whole[0], whole[1], shown, whole[2] / 1024, whole[2] * 1024 / size), flush=True)
        if growth is not None and growth > GROWTH:
            missed.append(name)
    print("%d met, %d missed%s" % (len(SOURCES) - len(missed), len(missed), ": " + ", ".join(missed) if missed else ""))
    raise SystemExit(1 if missed else 0)


if __name__ == "__main__":
    main()
