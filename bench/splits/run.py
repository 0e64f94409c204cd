#!/usr/bin/env python3
"""Times `split` and `split_lengths` on 1,000, 10,000 and 100,000 random columns.

Writes a copy of the crates with a small program over them into a temporary folder, proves and builds it with `rt run`,
and prints the least processor times and how much longer ten times as many columns take.
"""
import pathlib
import re
import shutil
import subprocess
import tempfile

ROOT = pathlib.Path(__file__).resolve().parent.parent.parent
CRATES = ("no_memory", "match_model", "range_split", "slice_split")
COUNTS = (1_000, 10_000, 100_000)
RUNS = 10

MAIN = """//! Times the pieces of random columns.
#![tactic(auto)]

ghost use Rattle.std.specs.Prelude.{◌↔◌, IsTrue};
ghost use Rattle.slice_split.specs.Shapes.{IsShort};

use range_split::{End, Num, Range};
use slice_split::Shape;
use std::alloc::{AllocError, Global};
use std::io;
use std::time::CpuClock;

fn next(seed: &mut u64) -> u64 {
    *seed = seed
        .wrapping_mul(6364136223846793005)
        .wrapping_add(1442695040888963407);
    *seed >> 24
}

fn number(seed: &mut u64) -> End {
    let negative = next(seed) % 2 == 0;
    End::At(Num::new(negative, next(seed) as u128))
}

fn ranges(alloc: Global, seed: &mut u64, count: u64) -> Result<Vec<Range>, AllocError> {
    let mut columns = Vec::new(alloc);
    for _ in 0..count {
        let one = number(seed);
        let other = number(seed);
        if let Some(range) = Range::new(one, other) {
            columns.push(range)?;
        } else if let Some(range) = Range::new(other, one) {
            columns.push(range)?;
        }
    }
    Ok(columns)
}

fn shapes(alloc: Global, seed: &mut u64, count: u64) -> Result<Vec<Shape>, AllocError> {
    let mut columns = Vec::new(alloc);
    for _ in 0..count {
        let first = next(seed) % count.max(1);
        if next(seed) % 2 == 0 {
            columns.push(Shape::Fixed(first))?;
        } else {
            let front = first / 2;
            let back = next(seed) % count.max(1) / 2;
            columns.push(Shape::Longer { front, back })?;
        }
    }
    Ok(columns)
}

fn is_short(shape: &Shape) -> bool
    ensures { IsTrue result ↔ IsShort shape.now }
{
    const LIMIT: u64 = 4_294_967_296;
    match *shape {
        Shape::Fixed(len) => len <= LIMIT,
        Shape::Longer { front, back } => front <= LIMIT && back <= LIMIT - front,
    }
}



fn count_ranges(alloc: Global, columns: &[Range]) -> usize {
    let low = End::At(Num::new(true, u128::MAX));
    let high = End::At(Num::new(false, u128::MAX));
    let Some(whole) = Range::new(low, high) else {
        return 0;
    };
    match range_split::split(alloc, &whole, columns) {
        Ok(pieces) => pieces.len(),
        Err(_) => 0,
    }
}

fn count_shapes(alloc: Global, columns: &[Shape]) -> usize {
    if !columns.iter().all(is_short) {
        return 0;
    }
    match slice_split::split_lengths(alloc, None, columns) {
        Ok(pieces) => pieces.len(),
        Err(_) => 0,
    }
}

fn run(rt: &(impl Print + CpuClock), alloc: Global, count: u64) -> io::Result<()> {
    let mut seed = count;
    let ranges = ranges(alloc, &mut seed, count)?;
    let start = rt.thread_cpu_time()?;
    let pieces = count_ranges(alloc, &ranges);
    let took = rt.thread_cpu_time()?.saturating_sub(start).as_micros();
    println!(rt; "split {count} {pieces} {took}")?;
    let shapes = shapes(alloc, &mut seed, count)?;
    let start = rt.thread_cpu_time()?;
    let pieces = count_shapes(alloc, &shapes);
    let took = rt.thread_cpu_time()?.saturating_sub(start).as_micros();
    println!(rt; "split_lengths {count} {pieces} {took}")
}

fn main(rt: HostRuntime) -> io::Result<()> {
    for _ in 0..RUNS {
        run(&rt, rt.alloc(), 1_000)?;
        run(&rt, rt.alloc(), 10_000)?;
        run(&rt, rt.alloc(), 100_000)?;
    }
    Ok(())
}
"""


def build(folder):
    """A copy of the crates with the program."""
    for crate in CRATES:
        shutil.copytree(ROOT / "crates" / crate, folder / "crates" / crate, ignore=shutil.ignore_patterns("must-fail", "out"))
    lines = (ROOT / "crates.txt").read_text().splitlines()
    needed = [line for line in lines if line.split(":")[0] in CRATES]
    (folder / "crates.txt").write_text("\n".join(needed + ["splits_bench: range_split slice_split"]) + "\n")
    program = folder / "crates" / "splits_bench"
    (program / "src").mkdir(parents=True)
    (program / "src" / "main.rt").write_text(MAIN.replace("RUNS", str(RUNS)))
    return program


def main():
    best = {}
    with tempfile.TemporaryDirectory() as folder:
        program = build(pathlib.Path(folder))
        done = subprocess.run(["rt", "run"], cwd=program, capture_output=True, text=True)
    for name, count, pieces, took in re.findall(r"^(\w+) (\d+) (\d+) (\d+)$", done.stdout, re.M):
        key = (name, int(count))
        if key not in best or int(took) < best[key][1]:
            best[key] = (int(pieces), int(took))
    if not best:
        raise SystemExit(done.stdout + done.stderr)
    print("| call | columns | pieces | ms | times the row before |")
    print("|---|---|---|---|---|")
    for name in ("split", "split_lengths"):
        before = None
        for count in COUNTS:
            pieces, took = best[(name, count)]
            growth = "%.1f" % (took / before) if before else ""
            print("| `%s` | %d | %d | %.2f | %s |" % (name, count, pieces, took / 1000, growth))
            before = took


if __name__ == "__main__":
    main()
