"""Families of ranges that touch and that other columns keep apart, each a function of its size."""
from writing import chance_of, either, family, flag, function, tuple_of

LETTERS = 64


def beside(parameter, rows, before=""):
    """Rows of these heads beside two ranges that touch, by turns."""
    arms = [f"({heads}, {('0..=5', '5..=9')[number % 2]})" for number, heads in enumerate(rows)]
    return function(f"({parameter}, u8)", arms + ["_"], before)


def quoted(text):
    """The text as a pattern."""
    return f'"{text}"'


@family(1000, 2000, 4000, overlaps=True)
def touching_beside_common_beginnings(count):
    """Ranges that touch beside texts that differ behind their first 64 letters."""
    return beside("&str", (quoted("a" * LETTERS + str(i)) for i in range(count)))


@family(1000, 2000, 4000, overlaps=True)
def touching_beside_common_ends(count):
    """Ranges that touch beside texts of one length that differ in their middle."""
    return beside("&str", (quoted("a" * LETTERS + f"{i:05}" + "b" * LETTERS) for i in range(count)))


@family(1000, 2000, 4000, overlaps=True)
def touching_beside_mixed_ends(count):
    """Ranges that touch beside texts of some beginnings and many ends, in several lengths."""
    texts = (chr(97 + i % 7) * (LETTERS + i % 3) + str(i) + "z" * (i % 5) for i in range(count))
    return beside("&str", (quoted(text) for text in texts))


@family(50000, 100000, 200000, overlaps=True, ten=1000000)
def touching_beside_one_long_text(count):
    """Arms of N/100 ranges that touch, two arms for each of five texts of N bytes that differ at their last letter."""
    ranges = either(f"{2 * i}..={2 * i + 2}" for i in range(count // 100))
    arms = [f"({quoted('a' * count + letter)}, {ranges})" for letter in "abcde"]
    return function("(&str, u32)", arms + ["_"])


def seldom_wild(number, count, pattern):
    """The pattern, and a wildcard in some two dozen rows of so many."""
    step = count // 12
    return "_" if number % step in (0, number // step * 7 % step) else pattern


@family(2400, 4800, 9600, overlaps=True)
def touching_seldom_wild(count):
    """Ranges that touch beside different numbers, but for some two dozen rows, and beside a flag."""
    rows = (f"{flag(i % 4 < 2)}, {seldom_wild(i, count, i)}" for i in range(count))
    return beside("bool, u32", rows)


@family(2400, 4800, 9600, overlaps=True)
def touching_seldom_wild_by_two(count):
    """Ranges that touch beside two numbers that tell rows apart together, but for some two dozen rows."""
    side = int(count**0.5) + 1
    rows = (
        f"{seldom_wild(i, count, i % side)}, {seldom_wild(i, count, i // side)}, {flag(i % 4 < 2)}" for i in range(count)
    )
    return beside("u32, u32, bool", rows)


@family(256, 512, 1024, overlaps=True)
def touching_at_many_places(count):
    """Rows of flags beside 64 places of ranges that touch: even rows have the one range, odd rows the other."""
    width = count.bit_length() - 1
    arms = []
    for number in range(2**width):
        ends = "0..=5" if bin(number).count("1") % 2 == 0 else "5..=9"
        arms.append(tuple_of([flag(number >> column & 1) for column in range(width)] + [ends] * 64))
    return function(tuple_of(["bool"] * width + ["u8"] * 64), arms + ["_"])


@family(1000, 2000, 4000, overlaps=True)
def touching_beside_large_numbers(count):
    """Ranges that touch beside two numbers of more than 64 bits, of which each returns often."""
    side = int(count**0.5) + 1
    rows = (f"{2**100 + i % side}, {2**101 + i // side}" for i in range(count))
    return beside("u128, u128", rows)


@family(1000, 2000, 4000, overlaps=True)
def touching_beside_few_numbers(count):
    """Ranges that touch beside many columns, each of three numbers."""
    width = 9
    rows = (", ".join(str(i // 3**column % 3) for column in range(width)) for i in range(count))
    return beside(", ".join(["u8"] * width), rows)


@family(1000, 2000, 4000, overlaps=True)
def touching_with_half_wild(count):
    """Ranges that touch beside ten columns, of which each row has a number in five."""
    chance, width = chance_of("half wild", count), 10
    rows = []
    for i in range(count):
        known = set(chance.sample(range(width), width // 2))
        rows.append(", ".join(str(chance.randrange(1000)) if column in known else "_" for column in range(width)))
    return beside(", ".join(["u32"] * width), rows)


@family(1000, 2000, 4000, overlaps=True)
def touching_beside_close_alternatives(count):
    """Ranges that touch beside or-patterns of four numbers that follow each other."""
    return beside("u32", (either(str(4 * i + j) for j in range(4)) for i in range(count)))


@family(1000, 2000, 4000, overlaps=True)
def touching_beside_texts_by_two(count):
    """Ranges that touch beside two texts in each row."""
    return beside("&str", (f'"a{i}" | "b{i}"' for i in range(count)))


@family(250, 500, 1000, overlaps=True)
def touching_and_meeting(count):
    """Ranges that touch beside numbers, of which each stands in four rows: 4 N overlaps are listed."""
    rows = (f"{i % count}, {quoted('a' * LETTERS + str(i % count))}" for i in range(4 * count))
    arms = [f"({heads}, {('0..=5', '5..=9')[number // count % 2]})" for number, heads in enumerate(rows)]
    return function("(u32, &str, u8)", arms + ["_"])
