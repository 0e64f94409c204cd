"""Families of missing cases, or-patterns, ranges and overlaps, each a function of its size."""
from writing import (
    BOTH, MODE, THREE, TREES, an_enum, chance_of, columns_of, either, family, flag, function, guarded,
    random_span, row, span, tuple_of, variant,
)


# Missing cases.


@family(20, 40, 80, ten=250)
def last_column_decides(count):
    """Flags and then a mode: row i takes Day where flag i holds, and the last row takes Night."""
    arms = [row(count + 1, {i: "true", count: "Mode::Day"}) for i in range(count)]
    return function(tuple_of(["bool"] * count + ["Mode"]), arms + [row(count + 1, {count: "Mode::Night"})], MODE)


@family(20, 40, 80, ten=250)
def first_column_decides(count):
    """A mode and then flags, with the rows of last_column_decides."""
    arms = [row(count + 1, {0: "Mode::Day", i + 1: "true"}) for i in range(count)]
    return function(tuple_of(["Mode"] + ["bool"] * count), arms + [row(count + 1, {0: "Mode::Night"})], MODE)


@family(20, 40, 80, ten=250)
def last_column_decides_twice(count):
    """Flags and a mode: each mode takes the values where some flag holds."""
    arms = [row(count + 1, {i: "true", count: f"Mode::{mode}"}) for mode in ("Day", "Night") for i in range(count)]
    return function(tuple_of(["bool"] * count + ["Mode"]), arms, MODE)


@family(20, 40, 80, ten=250)
def last_column_decides_variants(count):
    """Columns of three variants and a mode: Day takes A and B at each column, and Night takes all."""
    heads = [(i, f"Three::{name}") for i in range(count) for name in "AB"]
    arms = [row(count + 1, {i: head, count: "Mode::Day"}) for i, head in heads]
    arms.append(row(count + 1, {count: "Mode::Night"}))
    return function(tuple_of(["Three"] * count + ["Mode"]), arms, MODE + THREE)


@family(20, 40, 80, ten=250)
def last_field_decides(count):
    """A struct of flags and an optional mode: each flag with Some(Day), then Some(Night), then None."""
    fields = "".join(f"    pub a{i}: bool,\n" for i in range(count))
    arms = [f"S {{ a{i}: true, mode: Some(Mode::Day), .. }}" for i in range(count)]
    arms += ["S { mode: Some(Mode::Night), .. }", "S { mode: None, .. }"]
    return function("S", arms, f"{MODE}pub struct S {{\n{fields}    pub mode: Option<Mode>,\n}}\n")


@family(10, 20, 40)
def five_columns_decide(variants):
    """Five columns of variants and a mode: Day takes all but the last variant of each column, and Night takes all."""
    heads = [(column, number) for column in range(5) for number in range(variants - 1)]
    arms = [row(6, {column: variant(number), 5: "Mode::Day"}) for column, number in heads]
    arms.append(row(6, {5: "Mode::Night"}))
    return function(tuple_of(["E"] * 5 + ["Mode"]), arms, MODE + an_enum("E", variants))


@family(6, 8, 10, hard=BOTH)
def equal_halves_open(count):
    """Both halves of a tuple of flags have the same flag at one place; 2^N cases are missing."""
    arms = [row(2 * count, {i: held, count + i: held}) for i in range(count) for held in ("true", "false")]
    return function(columns_of("bool", 2 * count), arms)


@family(6, 8, 10, hard=BOTH)
def one_value_open(count):
    """Flags that decide nothing, and then six flags of which one case is missing for Night."""
    width = count + 7
    day, night = {width - 1: "Mode::Day"}, {width - 1: "Mode::Night"}
    arms = [row(width, day | {i: held, count: "true"}) for i in range(count) for held in ("true", "false")]
    tails = [number for number in range(64) if number != 37]
    arms += [row(width, night | {count + j: flag(number >> j & 1) for j in range(6)}) for number in tails]
    arms += [row(width, day | {count + j: "true"}) for j in range(6)]
    return function(tuple_of(["bool"] * (count + 6) + ["Mode"]), arms, MODE)


def clauses(name, count, number, kept):
    """So many rows of three random flags. Where a solution is kept, no row takes it."""
    chance = chance_of(name, count)
    solution, arms = [chance.random() < 0.5 for _ in range(count)], []
    while len(arms) < number:
        heads = {column: chance.random() < 0.5 for column in chance.sample(range(count), 3)}
        if not kept or any(solution[column] != held for column, held in heads.items()):
            arms.append(row(count, {column: flag(held) for column, held in heads.items()}))
    return arms


@family(10, 14, 18, hard=BOTH)
def clauses_open(count):
    """Six random clauses of three flags for each flag, with one solution at least: the missing cases."""
    return function(columns_of("bool", count), clauses("clauses_open", count, 6 * count, True))


@family(10, 14, 18, hard=BOTH)
def clauses_closed(count):
    """Five random clauses of three flags for each flag, and then a wildcard."""
    return function(columns_of("bool", count), clauses("clauses_closed", count, 5 * count, False) + ["_"])


@family(125, 250, 500)
def equal_variants_open(count):
    """Pairs of equal variants; each pair of two different ones is missing."""
    arms = [tuple_of([variant(i), variant(i)]) for i in range(count)]
    return function("(E, E)", arms, an_enum("E", count))


@family(250, 500, 1000)
def texts_by_variants_open(count):
    """Each variant with one text, and each of as many texts with any variant; every missing case lists the texts."""
    arms = [f'({variant(i)}, "x")' for i in range(count)] + [f'(_, "s{i}")' for i in range(count)]
    return function("(E, &str)", arms, an_enum("E", count))


@family(1000, 2000, 4000, ten=10000)
def long_name_open(count):
    """An enum with a name of ten bytes a variant, of which one is matched."""
    name = "E" + "x" * (10 * count)
    return function(name, ["V0"], an_enum(name, count) + f"use {name}::*;\n")


@family(64, 128, 255, ten=255)
def wide_flags_open(count):
    """A tuple of 256 flags, with one that holds in each row."""
    return function(columns_of("bool", 256), [row(256, {i: "true"}) for i in range(count)])


@family(2000, 4000, 8000)
def literals_open(count):
    """Numbers with gaps between them."""
    return function("u64", [str(3 * i) for i in range(count)])


@family(1000, 2000, 4000)
def functions_on_one_enum(count):
    """As many functions on one enum as it has variants, each with one variant and a wildcard."""
    functions = (function("E", [variant(i), "_"], name=f"f{i}") for i in range(count))
    return an_enum("E", count) + "".join(functions)


@family(250, 500, 1000)
def functions_on_one_enum_open(count):
    """As many functions on one enum as it has variants, each with one variant alone."""
    return an_enum("E", count) + "".join(function("E", [variant(i)], name=f"f{i}") for i in range(count))


@family(10, 12, 14, hard=BOTH)
def random_variants_open(count):
    """Columns of four variants and 40 rows of four random heads: the missing cases are many."""
    chance, arms = chance_of("random_variants_open", 40), []
    for _ in range(40):
        arms.append(row(count, {column: variant(chance.randrange(4)) for column in chance.sample(range(count), 4)}))
    return function(columns_of("E", count), arms, an_enum("E", 4))


def random_rows(name, columns, variants, heads, count):
    """So many rows of random variants in so many random columns."""
    chance = chance_of(name, count)
    drawn = (chance.sample(range(columns), heads) for _ in range(count))
    return [row(columns, {column: variant(chance.randrange(variants)) for column in chosen}) for chosen in drawn]


@family(40, 80, 160)
def dense_rows_open(count):
    """Eight columns of four variants, with four random heads in each row."""
    return function(columns_of("E", 8), random_rows("dense_rows_open", 8, 4, 4, count), an_enum("E", 4))


@family(40, 80, 160)
def dense_rows(count):
    """The rows of dense_rows_open and a wildcard."""
    return function(columns_of("E", 8), random_rows("dense_rows", 8, 4, 4, count) + ["_"], an_enum("E", 4))


@family(40, 80, 160)
def dense_rows_guarded(count):
    """The rows of dense_rows_open with guards, and a wildcard."""
    arms = guarded(random_rows("dense_rows_guarded", 8, 4, 4, count))
    return function(columns_of("E", 8), arms + ["_"], an_enum("E", 4))


@family(50, 100, 200, hard=BOTH)
def wide_rows(count):
    """64 columns of three variants, with three random heads in each row, and a wildcard."""
    return function(columns_of("E", 64), random_rows("wide_rows", 64, 3, 3, count) + ["_"], an_enum("E", 3))


# Or-patterns.


def alternatives_in_columns(count, of_column, arms=1):
    """Rows whose column has the alternatives that a function tells of row and column."""
    return [row(count, {column: either(of_column(arm, column)) for column in range(count)}) for arm in range(arms)]


@family(8, 10, 12, ten=120, hard=TREES)
def alternatives_that_bind(count):
    """One arm of two alternatives in each column, which bind a part of either variant, and a wildcard."""
    arms = alternatives_in_columns(count, lambda _, column: (f"E::A(x{column})", f"E::B(x{column})"))
    return function(columns_of("E", count), arms + ["_"], "pub enum E { A(u8), B(u8), C }\n")


@family(8, 10, 12, ten=120, hard=TREES)
def alternatives_that_bind_closed(count):
    """The arm of alternatives_that_bind over two variants, which takes all."""
    arms = alternatives_in_columns(count, lambda _, column: (f"E::A(x{column})", f"E::B(x{column})"))
    return function(columns_of("E", count), arms, "pub enum E { A(u8), B(u8) }\n")


@family(9, 12, 15, ten=150)
def alternatives_but_in_one_column(count):
    """As many rows as columns, with two of three variants in each column but one."""

    def heads(arm, column):
        return ["Three::C"] if arm == column else ["Three::A", "Three::B"]

    return function(columns_of("Three", count), alternatives_in_columns(count, heads, count) + ["_"], THREE)


@family(9, 12, 15, ten=150)
def alternatives_of_two(count):
    """Three rows, each with two of three variants in all columns."""
    arms = alternatives_in_columns(count, lambda arm, _: [f"Three::{name}" for name in ("AB", "BC", "AC")[arm]], 3)
    return function(columns_of("Three", count), arms + ["_"], THREE)


@family(8, 12, 16, ten=160)
def alternatives_in_turn(count):
    """Three rows of two of three variants, which change from column to column, and the same three again."""

    def heads(arm, column):
        return [f"Three::{name}" for name in ("AB", "BC", "AC")[(arm + column) % 3]]

    return function(columns_of("Three", count), alternatives_in_columns(count, heads, 6) + ["_"], THREE)


@family(9, 12, 15, ten=150)
def alternatives_at_random(count):
    """Twelve rows of two random variants of four in each column."""
    chance = chance_of("alternatives_at_random", count)
    arms = alternatives_in_columns(count, lambda *_: map(variant, sorted(chance.sample(range(4), 2))), 12)
    return function(columns_of("E", count), arms + ["_"], an_enum("E", 4))


@family(8, 10, 12, ten=120)
def alternatives_repeated_in_columns(count):
    """Two rows of A, B and A again in each column."""
    arms = alternatives_in_columns(count, lambda *_: ["Three::A", "Three::B", "Three::A"], 2)
    return function(columns_of("Three", count), arms + ["_"], THREE)


@family(1000, 2000, 4000)
def alternatives_repeated(count):
    """One arm that has two variants by turns."""
    return function("Three", [either(("Three::A", "Three::B")[i % 2] for i in range(count)), "_"], THREE)


@family(1000, 2000, 4000)
def literals_repeated(count):
    """One arm that has all numbers twice, and an arm that has them once more."""
    once = either(map(str, range(count)))
    return function("u64", [f"{once} | {once}", once, "_"])


@family(14, 28, 56, ten=60)
def nested_alternatives(depth):
    """Alternatives in alternatives, one number in each."""
    pattern = "0"
    for number in range(1, depth):
        pattern = f"({pattern} | {number})"
    return function("u64", [pattern, "_"])


@family(32, 64, 128)
def alternatives_of_many_names(count):
    """Alternatives that bind 256 names each, in another order."""
    items = [", ".join(f"x{(7 * j + i) % 256}" for j in range(256)) for i in range(count)]
    arm = either(f"({variant(i)}, [{names}])" for i, names in enumerate(items))
    return function("(E, [u8; 256])", [arm], an_enum("E", count))


# Ranges.


@family(250, 500, 1000)
def nested_ranges_guarded(count):
    """Ranges in one another, each guarded."""
    return function("u64", guarded(span(i, 4 * count - i) for i in range(count)) + ["_"])


@family(250, 500, 1000)
def widening_ranges_guarded(count):
    """Ranges around one number, the narrowest first, each guarded."""
    return function("u64", guarded(span(count - i, count + i) for i in range(count)) + ["_"])


def random_ranges(name, columns, count, numbers=1_000_000):
    """So many rows of random ranges in each column."""
    chance = chance_of(name, count)
    rows = ([random_span(chance, numbers) for _ in range(columns)] for _ in range(count))
    return [tuple_of(parts) if columns > 1 else parts[0] for parts in rows]


@family(250, 500, 1000)
def random_ranges_guarded(count):
    """Random ranges of which most overlap, each guarded."""
    return function("u64", guarded(random_ranges("random_ranges_guarded", 1, count, 10**9)) + ["_"])


@family(250, 500, 1000)
def random_widening_ranges(count):
    """Random ranges around one number, wider from arm to arm."""
    chance, arms, middle = chance_of("random_widening_ranges", count), [], 500_000_000
    for i in range(count):
        reach = 500 * (i + 1)
        arms.append(span(middle - chance.randrange(1, reach), middle + chance.randrange(1, reach)))
    return function("u64", arms + ["_"])


@family(50, 100, 200)
def two_ranges(count):
    """Random ranges in two columns."""
    return function("(u32, u32)", random_ranges("two_ranges", 2, count) + ["_"])


@family(50, 100, 200)
def two_ranges_open(count):
    """Random ranges in two columns, without a wildcard behind them."""
    return function("(u32, u32)", random_ranges("two_ranges_open", 2, count))


@family(50, 100, 200)
def two_ranges_guarded(count):
    """Random ranges in two columns, each row guarded."""
    return function("(u32, u32)", guarded(random_ranges("two_ranges_guarded", 2, count)) + ["_"])


@family(20, 40, 80)
def three_ranges(count):
    """Random ranges in three columns."""
    return function(columns_of("u32", 3), random_ranges("three_ranges", 3, count) + ["_"])


@family(16, 32, 64)
def four_ranges(count):
    """Random ranges in four columns."""
    return function(columns_of("u32", 4), random_ranges("four_ranges", 4, count) + ["_"])


def sliding(count, step):
    """A range of so many numbers, further on by a step from row to row."""
    return lambda i: span(step * i % (2 * count), step * i % (2 * count) + count)


@family(25, 50, 100)
def sliding_ranges(count):
    """Two columns of ranges that slide along, at another speed."""
    first, second = sliding(count, 1), sliding(count, 2)
    return function("(u32, u32)", [tuple_of([first(i), second(i)]) for i in range(count)] + ["_"])


@family(25, 50, 100)
def sliding_ranges_twice(count):
    """The rows of sliding_ranges twice: the second time all are unreachable."""
    first, second = sliding(count, 1), sliding(count, 2)
    rows = [tuple_of([first(i), second(i)]) for i in range(count)]
    return function("(u32, u32)", rows + rows + ["_"])


@family(20, 40, 80)
def three_sliding_ranges(count):
    """Three columns of ranges that slide along, each at another speed."""
    columns = [sliding(count, step) for step in (1, 7, 11)]
    return function(columns_of("u32", 3), [tuple_of([at(i) for at in columns]) for i in range(count)] + ["_"])


# Ranges that overlap in one number.


@family(10, 11, 12, overlaps=True, ten=15)
def touching_by_parity(count):
    """All rows of N flags: an even number of flags has one range, an odd number the next one. No two rows meet."""
    arms = []
    for number in range(2**count):
        even = bin(number).count("1") % 2 == 0
        heads = {column: flag(number >> column & 1) for column in range(count)}
        arms.append(row(count + 1, heads | {count: "0..=5" if even else "5..=9"}))
    return function(tuple_of(["bool"] * count + ["u8"]), arms + ["_"])


def touching(parameter, pairs):
    """Rows of two heads by turns, beside ranges that touch."""
    arms = [text for low, high in pairs for text in (f"({low}, 0..=5)", f"({high}, 5..=9)")]
    return function(f"({parameter}, u8)", arms + ["_"])


@family(500, 1000, 2000, overlaps=True)
def touching_beside_texts(count):
    """Ranges that touch beside different texts."""
    return touching("&str", ((f'"a{i}"', f'"b{i}"') for i in range(count)))


@family(500, 1000, 2000, overlaps=True)
def touching_beside_slices(count):
    """Ranges that touch beside slices with different first items."""
    return touching("&[u32]", ((f"[{i}, ..]", f"[{i + count}, ..]") for i in range(count)))


@family(500, 1000, 2000, overlaps=True)
def touching_beside_last_items(count):
    """Ranges that touch beside slices with different last items."""
    return touching("&[u32]", ((f"[.., {i}]", f"[.., {i + count}]") for i in range(count)))


@family(250, 500, 1000, overlaps=True)
def touching_beside_alternatives(count):
    """Ranges that touch beside pairs of different numbers."""
    return touching("u32", ((f"{4 * i} | {4 * i + 1}", f"{4 * i + 2} | {4 * i + 3}") for i in range(count)))


@family(500, 1000, 2000, overlaps=True)
def touching_beside_two_alternatives(count):
    """Ranges that touch beside pairs of numbers in two columns, of which one column keeps rows apart."""
    arms = []
    for i in range(count):
        first, second = f"{i} | {i + count}", f"{i + 1} | {i + count + 1}"
        arms += [f"({first}, {first}, 0..=5)", f"({first}, {second}, 5..=9)"]
    return function("(u32, u32, u8)", arms + ["_"])


@family(500, 1000, 2000, overlaps=True)
def touching_beside_wildcards(count):
    """Ranges that touch beside two numbers, of which one row has the first, the next the second, by turns."""
    arms = []
    for i in range(count):
        arms += [f"({i}, 0, _, 0..=5)", f"(_, 1, {i}, 5..=9)"]
    return function("(u32, u32, u32, u8)", arms + ["_"])


def seldom(number, count, pattern):
    """The pattern in some two dozen rows of so many, and a wildcard elsewhere. The rows are those that are compared."""
    step = count // 12
    return pattern if number % step in (0, number // step * 7 % step) else "_"


def touching_rows(parameter, rows, count, before=""):
    """Rows of these heads beside two ranges that touch, by turns."""
    arms = [f"({heads}, {('0..=5', '5..=9')[number % 2]})" for number, heads in enumerate(rows)]
    return function(f"({parameter}, u8)", arms + ["_"], before)


@family(2400, 4800, 9600, overlaps=True)
def touching_seldom_numbers(count):
    """Ranges that touch beside variants that return, and beside a number in a few rows."""
    rows = (f"{variant(i % (count // 2))}, {seldom(i, count, i)}" for i in range(count))
    return touching_rows("E, u32", rows, count, an_enum("E", count))


@family(2400, 4800, 9600, overlaps=True)
def touching_seldom_numbers_first(count):
    """The same with the seldom numbers before the variants."""
    rows = (f"{seldom(i, count, i)}, {variant(i % (count // 2))}" for i in range(count))
    return touching_rows("u32, E", rows, count, an_enum("E", count))


@family(2400, 4800, 9600, overlaps=True)
def touching_seldom_texts(count):
    """Ranges that touch beside variants that return, and beside a text in a few rows."""
    rows = (variant(i % (count // 2)) + ", " + seldom(i, count, f'"t{i}"') for i in range(count))
    return touching_rows("E, &str", rows, count, an_enum("E", count))


@family(2400, 4800, 9600, overlaps=True)
def touching_seldom_items(count):
    """Ranges that touch beside variants that return, and beside the first item of a slice in a few rows."""
    rows = (variant(i % (count // 2)) + ", " + seldom(i, count, f"[{i}, ..]") for i in range(count))
    return touching_rows("E, &[u32]", rows, count, an_enum("E", count))


@family(2400, 4800, 9600, overlaps=True)
def touching_late_variants(count):
    """Ranges that touch beside a flag and, but for the first third of the rows, beside different variants."""
    rows = (f"{flag(i % 4 < 2)}, {variant(i) if 3 * i >= count else '_'}" for i in range(count))
    return touching_rows("bool, E", rows, count, an_enum("E", count))


@family(2400, 4800, 9600, overlaps=True)
def touching_with_one_wild(count):
    """Ranges that touch beside different variants and nine flags, of which another one is left open in each row."""
    rows = (", ".join([variant(i)] + ["_" if j == i % 9 else "true" for j in range(9)]) for i in range(count))
    return touching_rows("E, " + ", ".join(["bool"] * 9), rows, count, an_enum("E", count))


@family(1024, 2048, 4096, overlaps=True)
def touching_by_parity_and_seldom(count):
    """Rows of flags that touch by their parity, beside a number in a few of them."""
    width = count.bit_length() - 1
    arms = []
    for number in range(2**width):
        flags = [flag(number >> column & 1) for column in range(width)]
        ends = "0..=5" if bin(number).count("1") % 2 == 0 else "5..=9"
        arms.append(tuple_of(flags + [seldom(number, count, str(number)), ends]))
    return function(tuple_of(["bool"] * width + ["u32", "u8"]), arms + ["_"])


@family(100000, 200000, 400000, overlaps=True, ten=2000000)
def touching_beside_long_texts(count):
    """Two arms of N/14 ranges that touch by turns, beside texts of N bytes."""
    ranges = either(span(number // 2, number // 2 + 1) for number in range(count // 7))
    return function("(&str, u32)", [f'("{letter * count}", {ranges})' for letter in "ab"] + ["_"])


@family(1000, 2000, 4000, overlaps=True)
def touching_two_arms(count):
    """Two arms of N different alternatives, beside ranges that touch once."""
    arms = [f"({either(str(2 * i + odd) for i in range(count))}, {('0..=5', '5..=9')[odd]})" for odd in (0, 1)]
    return function("(u32, u8)", arms + ["_"])


@family(250, 500, 1000, overlaps=True)
def touching_everywhere(count):
    """Guarded ranges of which each of one half touches each of the other: N^2 overlaps are listed."""
    return function("u8", guarded(["0..=5"] * count + ["5..=9"] * count) + ["_"])


@family(1, 2, 4, ten=4)
def touching_in_deep_slices(depth):
    """Ranges that touch behind slices in slices, with 60 items on both sides of each rest."""

    def nest(leaf, front):
        for _ in range(depth):
            many, few = ["_"] * 60, ["_"] * 59
            leaf = "[" + ", ".join([leaf] + few + [".."] + many if front else many + [".."] + few + [leaf]) + "]"
        return leaf

    arms = [nest("(0..=5, true)", True), nest("(5..=9, false)", False), nest("(5..=9, false)", True), "_"]
    return function("&[" * depth + "(u8, bool)" + "]" * depth, arms)
