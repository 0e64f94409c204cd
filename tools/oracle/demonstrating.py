"""The generated file of `demo N`, and the counts that are written of it."""
import json

from reporting import check, output

LEAST, GREATEST = 1, 200


def demo_file(count):
    """The bytes of the file."""
    lines = []
    for i in range(count):
        k = i % 5 + 1
        units = [f"V{j}" for j in range(k)]
        patterns = [f"E{i}::{unit}" for unit in units] + [f"E{i}::W(0..=100, true)", f"E{i}::W(100..=255, _)"]
        if i % 2 == 0:
            patterns.append(f"E{i}::W(_, false)")
        if i % 3 == 0:
            patterns.append(f"E{i}::V0")
        arms = "".join(f"{pattern} => {number}, " for number, pattern in enumerate(patterns))
        lines.append(f"enum E{i} {{ {', '.join(units)}, W(u8, bool) }}\n")
        lines.append(f"fn f{i}(x: &E{i}) {{ match x {{ {arms}}} }}\n")
    return "".join(lines).encode("ascii")


def demo(word):
    """What `demo` writes for its word, and its status; None where the word is no number that it takes."""
    if word not in map(str, range(LEAST, GREATEST + 1)):
        return None
    data = demo_file(int(word))
    text, status = check(data)
    entries = json.loads(text)["functions"]
    counts = {
        "arms": data.count(b" => "),
        "exhaustive": sum(entry["exhaustive"] for entry in entries),
        "functions": len(entries),
        "overlaps": sum(len(entry["overlaps"]) for entry in entries),
        "unreachable": sum(len(entry["unreachable"]) for entry in entries),
        "witnesses": sum(len(entry["witnesses"]) for entry in entries),
    }
    return output(counts), status
