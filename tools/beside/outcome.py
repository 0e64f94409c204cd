"""What the judges say of the matches of a crate, counted."""


class Outcome:
    """What was found in one crate."""

    def __init__(self, counts):
        self.counts = counts
        self.refused = self.lacking = self.unreachable = self.overlaps = self.unexplained = 0
        self.explained = {}

    def take(self, ours, theirs, reason):
        """Counts the verdicts on one match."""
        self.refused += bool(ours.refused and theirs.refused)
        self.lacking += not ours.is_exhaustive
        self.unreachable += bool(ours.unreachable)
        self.overlaps += bool(ours.overlaps)
        if reason is not None:
            self.explained[reason] = self.explained.get(reason, 0) + 1

    def judged(self):
        """How many matches both judges judged."""
        return self.counts["written"] - self.refused
