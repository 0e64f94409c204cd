"""Writes the tables of docs/real-code.md."""
COLUMNS = (
    "Crate", "Files", "Matches", "Judged", "Left out", "Not exhaustive", "Unreachable", "Overlaps", "Differences",
)


def cells(outcome):
    """The row of a crate."""
    counts = outcome.counts
    left_out = counts["matches"] - outcome.judged()
    explained = sum(outcome.explained.values())
    return (
        counts["crate"], counts["files"], counts["matches"], outcome.judged(), left_out,
        outcome.lacking, outcome.unreachable, outcome.overlaps, explained + outcome.unexplained,
    )


def line(outcome):
    """The row of a crate for people."""
    return ", ".join(f"{name.lower()} {cell}" for name, cell in zip(COLUMNS, cells(outcome)))


def table(columns, rows):
    """A table of Markdown."""
    lines = ["| " + " | ".join(columns) + " |", "|" + "---|" * len(columns)]
    return lines + ["| " + " | ".join(f"{it:,}" if isinstance(it, int) else it for it in row) + " |" for row in rows]


def totals(outcomes, of):
    """The sum of a count of each crate, by its key, the greatest first."""
    found = {}
    for outcome in outcomes:
        for key, number in of(outcome).items():
            found[key] = found.get(key, 0) + number
    return sorted(found.items(), key=lambda it: (-it[1], it[0]))


def put(text, name, lines):
    """The page with these lines between its marks of this name."""
    first, last = f"<!-- {name} -->\n", f"<!-- end of {name} -->"
    before, found, rest = text.partition(first)
    _, ended, after = rest.partition(last)
    if not (found and ended):
        raise SystemExit(f"beside: the page has no marks of {name}")
    return before + first + "\n" + "\n".join(lines) + "\n\n" + last + after


def write(page, outcomes):
    """Writes the tables of the page."""
    shown = [outcome for outcome in outcomes if outcome.counts["matches"]]
    rows = [cells(outcome) for outcome in shown]
    total = (f"all {len(shown)}", *(sum(row[at] for row in rows) for at in range(1, len(COLUMNS))))
    left_out = totals(shown, lambda it: it.counts["left_out"])
    left_out += counted("refused by both judges, since a type was found wrongly", [it.refused for it in shown])
    explained = totals(shown, lambda it: it.explained)
    explained += counted("nothing explains it", [it.unexplained for it in shown])
    text = page.read_text(encoding="utf-8")
    text = put(text, "crates", table(COLUMNS, [total, *rows]))
    text = put(text, "left out", table(("Why a match is left out", "Matches"), left_out))
    text = put(text, "explained", table(("Why the judges differ", "Matches"), explained))
    page.write_text(text, encoding="utf-8")


def counted(words, numbers):
    """The row of the sum of these numbers, if it is not 0."""
    return [(words, sum(numbers))] if any(numbers) else []
