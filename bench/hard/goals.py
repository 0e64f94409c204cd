"""What is known of a family at a size, its line of the table, and the goals."""

NODE_SECONDS, PLACE_SECONDS = 2e-6, 1e-6
# What differs less than this from run to run is no difference.
NOISE = 1.5
# Times below these, behind the start of the program, are not judged, in seconds.
SHORTEST = {"check": 0.002, "eval": 0.002, "rustc": 0.010}
TREES_SHORTEST = 0.005
JUDGED = 0.010


class Point:
    """The runs of a family at a size by command, and what they wrote."""

    def __init__(self, size, source, runs):
        self.size, self.source, self.runs = size, source, runs
        self.written = self.nodes = self.places = 0
        self.query = None

    def line(self, family, before, query):
        """The line of the table, behind that of a smaller size."""
        cells = [family.name, str(self.size)] + [told(self.runs.get(name)) for name in ("check", "trees", "eval")]
        cells += [told(self.runs.get("rustc")), f"{self.ratio():.1f}" if self.told("check", "rustc") else ""]
        cells += [self.growth_cell(name, before) for name in ("check", "rustc")]
        cells.append(f"{self.query:.4f}" if self.query is not None else "") if query else None
        cells += [f"{self.source:,}", f"{self.written:,}", f"{self.nodes:,}" if self.nodes else ""]
        cells.append(" / ".join(f"{run.memory:.0f}" for run in self.runs.values()))
        return "| " + " | ".join(cells) + " |"

    def told(self, *names):
        """Whether these commands were run."""
        return all(name in self.runs for name in names)

    def ratio(self):
        """rustc's time by that of `check`."""
        return self.runs["rustc"].seconds / self.runs["check"].seconds

    def growth_cell(self, name, before):
        """How much longer the command takes than at the smaller size, as the table shows it."""
        if before is None or not self.told(name) or not before.runs[name].answered():
            return ""
        return f"{self.runs[name].seconds / before.runs[name].seconds:.2f}"

    def growth(self, name, before, starts):
        """How much longer the command takes than at the smaller size, without its start."""
        start, shortest = starts.get(name, starts["check"]), SHORTEST[name]
        now, then = (max(point.runs[name].seconds - start, shortest) for point in (self, before))
        return now / then


def told(run):
    """The time of a run, as the table shows it."""
    if run is None:
        return ""
    if run.answered():
        return f"{run.seconds:.4f}" if run.seconds < 1 else f"{run.seconds:.2f}"
    if run.cut():
        return f"over {run.seconds:.0f}"
    return "no memory" if run.starved() else f"status {run.status}"


def heading(query):
    """The first two lines of the table."""
    words = ["family", "N", "check", "trees", "eval", "rustc", "ratio", "growth", "of rustc"]
    words += ["check_match"] * query + ["source", "written", "nodes", "MB"]
    return "| " + " | ".join(words) + " |\n" + "|---" * len(words) + "|"


def of(family, points, starts):
    """Each goal of a family that can be judged, and whether it is met."""
    goals = [goal for point in points for goal in at_size(point)]
    if len(points) > 1 and family.value is None:
        goals += of_growth(family, points[-2], points[-1], starts)
    if len(points) > 1 and family.value is not None:
        goals += of_values(points[-2], points[-1], starts)
    return goals


def at_size(point):
    """The goals of one size."""
    ours, theirs = point.runs["check"], point.runs["rustc"]
    if ours.answered() or theirs.answered():
        faster = ours.answered() and (not theirs.answered() or ours.seconds <= theirs.seconds)
        yield f"{point.size}: no slower than rustc: {told(ours)} beside {told(theirs)}", faster
    if point.nodes:
        spent = point.runs["trees"].seconds - ours.seconds
        allowed = NODE_SECONDS * point.nodes + PLACE_SECONDS * point.places
        text = f"{point.size}: trees take 2 microseconds a node and 1 a place: {spent:.4f} s of {allowed:.4f}"
        yield text, spent <= max(NOISE * allowed, TREES_SHORTEST)


def of_growth(family, before, after, starts):
    """The goals of growth. A family of overlaps may take n log n and what is listed, whatever rustc takes."""
    own, other = after.runs["check"], after.runs["rustc"]
    if not own.answered() or not before.runs["check"].answered() or own.seconds < JUDGED:
        return
    ours = after.growth("check", before, starts)
    bytes_growth = (after.source + after.written) / (before.source + before.written)
    if family.overlaps:
        text = f"{after.size}: overlaps take n log n and what is listed ({bytes_growth:.1f}): growth {ours:.1f}"
        yield text, ours <= NOISE * bytes_growth
    elif other.answered() and before.runs["rustc"].answered():
        theirs = after.growth("rustc", before, starts)
        text = f"{after.size}: growth {ours:.1f} beside {theirs:.1f} of rustc and {bytes_growth:.1f} of all bytes"
        yield text, ours <= NOISE * max(theirs, bytes_growth)


def of_values(before, after, starts):
    """The goals of `eval`: polynomial, at most the square of the source."""
    own, first = after.runs["eval"], before.runs["eval"]
    if not own.answered():
        yield f"{after.size}: eval ends: {told(own)}", False
    elif own.seconds < JUDGED:
        yield f"{after.size}: eval is polynomial", True
    else:
        growth, square = after.growth("eval", before, starts), (after.source / before.source) ** 2
        text = f"{after.size}: eval takes the square of the source: growth {growth:.1f}, square {square:.1f}"
        yield text, growth <= NOISE * square


def of_ten(family, points):
    """The goals at ten times the size: each command ends, or says that it wants memory."""
    for name, run in points[-1].runs.items():
        if not (run.cut() and name in family.hard):
            yield f"{points[-1].size}: {name} ends: {told(run)}", run.answered() or run.status == 6
