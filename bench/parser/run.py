#!/usr/bin/env python3
"""Times decl_parser on sources of 16 MB: ordinary text, and files that are extreme in one way each.

Writes the sources, whole and half as long, and a copy of the crates with a small program over
decl_lexer and decl_parser into a folder for temporary files, builds it, and prints for each source the tokens, the
time that parsing takes, the tokens a second, how much longer the whole takes than the half, and the
memory of the whole run. The last line says how many sources met the goal; the exit status is 1 where one missed it.
"""
import pathlib
import random
import re
import shutil
import subprocess
import tempfile

HERE = pathlib.Path(__file__).resolve().parent
ROOT = HERE.parent.parent
OUT = pathlib.Path(tempfile.gettempdir()) / "matchcheck-bench" / "parser"
SIZE = 16 * 1024 * 1024
RUNS = 3
# How much longer a source may take than half of it.
GROWTH = 2.2
CRATES = ("no_memory", "decl_lexer", "decl_syntax", "decl_parser")

MAIN = """//! Parses each file, and prints how many tokens it has, what came out and how long that took.
#![tactic(auto)]

use decl_parser::ParseFault;
use std::time::Instant;
use std::{env, fs, io};

fn main(rt: HostRuntime) -> io::Result<()> {
    for path in env::args(&rt)?.skip(1) {
        let bytes = fs::read(&rt, path.as_str())?;
        let start = Instant::now(&rt)?;
        let Ok(tokens) = decl_lexer::lex(rt.alloc(), bytes.as_slice()) else {
            println!(rt; "no tokens")?;
            continue;
        };
        let lexed = start.elapsed(&rt)?.as_millis();
        let begun = Instant::now(&rt)?;
        let outcome = match decl_parser::parse(rt.alloc(), &tokens) {
            Ok(_) => "file",
            Err(ParseFault::Syntax { .. }) => "syntax",
            Err(ParseFault::Wide { .. }) => "wide",
            Err(ParseFault::NoMemory) => "memory",
        };
        let count = tokens.len();
        let took = begun.elapsed(&rt)?.as_millis();
        println!(rt; "{count} tokens lexed in {lexed} ms, {outcome} in {took} ms")?;
    }
    Ok(())
}
"""


def ordinary(size):
    """Enums, structs and functions of many forms."""
    source = random.Random(2)
    parts = []
    length = 0
    while True:
        n = len(parts)
        k = source.randint(2, 9)
        variants = ", ".join(source.choice(["V%d", "V%d(u8, bool)", "V%d { at: usize, seen: Option<char> }"]) % i for i in range(k))
        arms = "".join(
            "        %s => %s,\n" % (
                source.choice(["E%d::V0", "E%d::V1(0..=100, true)", "E%d::V2 { at: 1 | 2, .. }", "E%d::V0 | E%d::V1(..)", "ref x @ E%d::V0"]).replace("%d", str(n)),
                source.choice(["1", "{ let n = 5; n }", "f(a, b)", "[1, 2, (3)]"]),
            )
            for _ in range(source.randint(2, 12))
        )
        part = "#[derive(Debug)]\npub enum E%d<'a> { %s }\npub fn f%d(x: &E%d<'_>) -> u8 {\n    match x {\n%s        _ if g(x) => 0,\n        _ => 1,\n    }\n}\n" % (n, variants, n, n, arms)
        if length + len(part) > size:
            break
        parts.append(part)
        length += len(part)
    return "".join(parts)


def repeated(front, piece, back):
    """A source of so many bytes that is one piece again and again."""
    return lambda size: front + piece * ((size - len(front) - len(back)) // len(piece)) + back


SOURCES = {
    "ordinary text": ordinary,
    "open brackets": repeated("", "(", ""),
    "open brackets in a pattern": repeated("fn f(x: u8) { match x { ", "(", ""),
    "open brackets in a body": repeated("fn f(x: u8) { match x { _ => ", "(", ""),
    "bars in a pattern": repeated("fn f(x: u8) { match x { ", "|", ""),
    "alternatives": repeated("fn f(x: u8) { match x { 1", "|2", " => 1 } }"),
    "ampersands in a pattern": repeated("fn f(x: u8) { match x { ", "&", ""),
    "ampersands in a type": repeated("fn f(x: ", "&", ""),
    "one match of many arms": repeated("fn f(x: E) { match x { ", "E::Variant(1, _) if g() => {}\n", "} }"),
    "many functions": repeated("", "fn function_name(x: bool) { match x {} }\n", ""),
    "many structs": repeated("", "struct S;", ""),
    "variants": repeated("enum E { ", "A(u8), ", "}"),
    "lists in one another": repeated("fn f(x: u8) { match x { ", "[" * 63 + "]" * 63 + " => {}\n", "} }"),
    "fields of a pattern": repeated("fn f(x: u8) { match x { A { ", "a, ", "} => 1 } }"),
    "slices": repeated("fn f(x: u8) { match x { ", "[_] => {}\n", "} }"),
    "arguments of a type": repeated("struct S(A<", "u8, ", ">);"),
    "a file of attributes": repeated("", "#![a]", ""),
    "an attribute of the file that never ends": repeated("#![", "(a)", ""),
}


def build():
    """The program that parses."""
    repo = OUT / "repo"
    repo.mkdir(parents=True, exist_ok=True)
    shutil.copytree(ROOT / "crates", repo / "crates", dirs_exist_ok=True, ignore=shutil.ignore_patterns("must-fail"))
    needed = [line for line in (ROOT / "crates.txt").read_text().splitlines() if line.split(":")[0] in CRATES]
    (repo / "crates.txt").write_text("\n".join(needed + ["parser_bench: decl_lexer decl_syntax decl_parser"]) + "\n")
    crate = repo / "crates" / "parser_bench"
    (crate / "src").mkdir(parents=True, exist_ok=True)
    (crate / "src" / "main.rt").write_text(MAIN)
    subprocess.run(["rt", "run"], cwd=crate, check=True, stdout=subprocess.DEVNULL, stderr=subprocess.DEVNULL)
    return crate / "out" / "parser_bench"


def run(program, path):
    """The tokens, the outcome, the milliseconds of parsing and the kilobytes of one run."""
    done = subprocess.run(["/usr/bin/time", "-f", "%M", str(program), str(path)], capture_output=True, text=True, check=True)
    found = re.search(r"(\d+) tokens lexed in \d+ ms, (\w+) in (\d+) ms", done.stdout)
    if found is None:
        raise SystemExit("%s has no tokens" % path)
    tokens, outcome, took = found.groups()
    return int(tokens), outcome, int(took), int(done.stderr.split()[-1])


def least(program, paths):
    """For each file the run of several that took least; the files are taken in turn."""
    runs = [[run(program, path) for path in paths] for _ in range(RUNS)]
    return [min(of_one, key=lambda result: result[2]) for of_one in zip(*runs)]


def main():
    OUT.mkdir(parents=True, exist_ok=True)
    program = build()
    print("| source | tokens | outcome | ms | million tokens/s | growth from half | bytes of memory a byte |")
    print("|---|---|---|---|---|---|---|")
    missed = []
    for name, source in SOURCES.items():
        paths = [OUT / "half.txt", OUT / "whole.txt"]
        for path, size in zip(paths, (SIZE // 2, SIZE)):
            path.write_text(source(size))
        half, whole = least(program, paths)
        speed = "%.1f" % (whole[0] / 1000 / whole[2]) if whole[2] else ""
        growth = "%.2f" % (whole[2] / half[2]) if half[2] > 20 else "under 20 ms"
        row = (name, whole[0], whole[1], whole[2], speed, growth, whole[3] * 1024 / paths[1].stat().st_size)
        print("| %s | %d | %s | %d | %s | %s | %.1f |" % row, flush=True)
        if half[2] > 20 and whole[2] > GROWTH * half[2]:
            missed.append(name)
    print("%d met, %d missed%s" % (len(SOURCES) - len(missed), len(missed), ": " + ", ".join(missed) if missed else ""))
    raise SystemExit(1 if missed else 0)


if __name__ == "__main__":
    main()
