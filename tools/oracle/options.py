"""The options of a command line: the bits of `usize` and `isize`, or `None` where they have no width, and the edition."""

WIDTHS = {"16": 16, "32": 32, "64": 64}
EDITIONS = {"2021": 2021, "2024": 2024}

width = None
edition = 2024


def taken(words):
    """The words without the options at their end, which hold from now on, and these options as words."""
    global width, edition
    width, edition, found = None, 2024, []
    if len(words) >= 2 and words[-2] == "--edition" and words[-1] in EDITIONS:
        edition, found, words = EDITIONS[words[-1]], words[-2:], words[:-2]
    if len(words) >= 2 and words[-2] == "--width" and words[-1] in WIDTHS:
        width, found, words = WIDTHS[words[-1]], words[-2:] + found, words[:-2]
    return words, found
