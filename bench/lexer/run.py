#!/usr/bin/env python3
"""Compares decl_lexer with a plain lexer in Rust on three sources of 16 MB.

Writes the sources, a copy of the crates with a small program over decl_lexer, and the plain lexer's
program into a folder for temporary files, builds both, runs them in turn, and prints the least times, the
tokens a second, the ratio and the memory a byte of source.
"""
import pathlib
import random
import re
import shutil
import subprocess
import tempfile

HERE = pathlib.Path(__file__).resolve().parent
ROOT = HERE.parent.parent
OUT = pathlib.Path(tempfile.gettempdir()) / "matchcheck-bench" / "lexer"
SIZE = 16 * 1024 * 1024
RUNS = 12

MAIN = """//! Cuts each file into tokens, and prints how many they are and how long that took.
#![tactic(auto)]

use std::time::Instant;
use std::{env, fs, io};

fn main(rt: HostRuntime) -> io::Result<()> {
    for path in env::args(&rt)?.skip(1) {
        let bytes = fs::read(&rt, path.as_str())?;
        let start = Instant::now(&rt)?;
        let count = match decl_lexer::lex(rt.alloc(), bytes.as_slice()) {
            Ok(tokens) => tokens.len(),
            Err(_) => 0,
        };
        let took = start.elapsed(&rt)?.as_millis();
        println!(rt; "{count} tokens in {took} ms")?;
    }
    Ok(())
}
"""

WORDS = "fn match let if else enum struct impl pub use mut ref return self where".split()
MARKS = ["(", ")", "{", "}", ", ", "::", " => ", "..=", "&", "&&", ".", ";", " = ", ":", " | ", "_ "]


def sources(random):
    """Ordinary code, comments, and long texts."""
    name = lambda: "".join(random.choice("abcdefghijklmnopqrstuvwxyz_") for _ in range(random.randint(2, 9)))
    names = [name() for _ in range(2000)]
    some = lambda n: " ".join(random.choice(names) for _ in range(n))

    def piece():
        kind = random.random()
        if kind < 0.15:
            return random.choice(WORDS) + " "
        if kind < 0.69:
            literals = ["%d" % random.randint(0, 100000), "0x%x" % random.randint(0, 1 << 40), "'a'", '"%s\\n"' % some(2)]
            text = random.choice(names) if kind < 0.55 else random.choice(literals)
            return text + random.choice([" ", " ", ".", "(", ")", ",", ";", "::"])
        return random.choice(MARKS)

    def line():
        end = " // " + some(6) if random.random() < 0.1 else ""
        return "    " * random.randint(0, 3) + "".join(piece() for _ in range(random.randint(4, 12))) + end + "\n"

    code = "".join(line() for _ in range(4000))
    comments = "".join("// %s\n/* %s /* nested */ %s */\n" % (some(9), some(20), some(1)) for _ in range(2000))
    texts = "".join('"%s \\n %s \\u{e9}";\n' % (some(300), some(1)) for _ in range(200))
    texts += "".join('r#"%s"#;\n' % some(300) for _ in range(100))
    return {"code": code, "comments": comments, "texts": texts}


def build():
    """The two programs."""
    repo = OUT / "repo"
    repo.mkdir(parents=True, exist_ok=True)
    shutil.copytree(ROOT / "crates", repo / "crates", dirs_exist_ok=True, ignore=shutil.ignore_patterns("must-fail"))
    needed = [line for line in (ROOT / "crates.txt").read_text().splitlines() if line.split(":")[0] in ("no_memory", "decl_lexer")]
    (repo / "crates.txt").write_text("\n".join(needed + ["lexer_bench: decl_lexer"]) + "\n")
    crate = repo / "crates" / "lexer_bench"
    (crate / "src").mkdir(parents=True, exist_ok=True)
    (crate / "src" / "main.rt").write_text(MAIN)
    subprocess.run(["rt", "run"], cwd=crate, check=True, stdout=subprocess.DEVNULL, stderr=subprocess.DEVNULL)
    subprocess.run(["rustc", "-O", "--edition", "2024", "-o", str(OUT / "plain"), str(HERE / "plain.rs")], check=True)
    return {"decl_lexer": crate / "out" / "lexer_bench", "plain": OUT / "plain"}


def run(program, path):
    """The tokens, the milliseconds and the kilobytes of one run."""
    done = subprocess.run(["/usr/bin/time", "-f", "%M", str(program), str(path)], capture_output=True, text=True, check=True)
    tokens, took = re.search(r"(\d+) tokens in (\d+) ms", done.stdout).groups()
    return int(tokens), int(took), int(done.stderr.split()[-1])


def main():
    OUT.mkdir(parents=True, exist_ok=True)
    programs = build()
    print("| source | tokens | decl_lexer ms | plain ms | speed | million tokens/s | MB/s | bytes of memory a byte |")
    print("|---|---|---|---|---|---|---|---|")
    for kind, block in sources(random.Random(1)).items():
        path = OUT / (kind + ".txt")
        path.write_text(block * (SIZE // len(block)))
        size = path.stat().st_size
        best = {name: None for name in programs}
        for _ in range(RUNS):
            for name, program in programs.items():
                result = run(program, path)
                if best[name] is None or result[1] < best[name][1]:
                    best[name] = result
        ours, plain = best["decl_lexer"], best["plain"]
        if ours[0] != plain[0]:
            raise SystemExit("the lexers differ on %s: %d and %d tokens" % (kind, ours[0], plain[0]))
        row = (kind, ours[0], ours[1], plain[1], plain[1] / ours[1], ours[0] / 1000 / ours[1], size / 1000 / ours[1], ours[2] * 1024 / size)
        print("| %s | %d | %d | %d | %.2f | %.2f | %.0f | %.1f |" % row)


if __name__ == "__main__":
    main()
