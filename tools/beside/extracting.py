"""Builds tools/extract with Debian's packages of `syn`, and runs it over crates."""
import json
import os
import pathlib
import shutil
import subprocess
import sys

TOP = pathlib.Path(__file__).resolve().parent.parent.parent
TOOL = TOP / "tools" / "extract"
TARGET = TOP / "out" / "extract"
REGISTRY = "/usr/share/cargo/registry"


def build(registry):
    """The built extractor. `registry` is a folder with the sources of `syn` and what it needs."""
    if shutil.which("cargo") is None:
        sys.exit("beside: cargo is not on the PATH")
    if not any(pathlib.Path(registry).glob("syn-1.*")):
        sys.exit(f"beside: {registry} has no syn 1, and tests/README.md tells how to install it")
    sources = ['source.crates-io.replace-with="system"', f"source.system.directory={json.dumps(registry)}"]
    command = ["cargo", "build", "--quiet", "--offline", "--release"]
    command += [word for source in sources for word in ("--config", source)]
    ran = subprocess.run(command, cwd=TOOL, env={**os.environ, "CARGO_TARGET_DIR": str(TARGET)})
    if ran.returncode != 0:
        sys.exit("beside: tools/extract is not built")
    return TARGET / "release" / "extract"


def crates_below(folder):
    """The folders with a `Cargo.toml` at or below this one, or the folder itself where there is none."""
    found = [at for at in pathlib.Path(folder).rglob("Cargo.toml") if "target" not in at.parts]
    return sorted(at.parent for at in found) or [pathlib.Path(folder)]


def extract(tool, out, crate):
    """What the extractor counts in a crate, and the files that it writes."""
    out.mkdir(parents=True, exist_ok=True)
    ran = subprocess.run([str(tool), str(out), str(crate)], capture_output=True, text=True)
    if ran.returncode != 0:
        sys.exit(f"beside: {crate}: {ran.stderr.strip()}")
    counts = json.loads(ran.stdout)
    return counts, [out / counts["crate"] / f"{number:05}.rs" for number in range(1, counts["written"] + 1)]
