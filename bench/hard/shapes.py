"""Families of slices, many places, texts, references, trees and values, each a function of its size."""
from families import alternatives_in_columns, alternatives_that_bind
from writing import (
    MODE, THREE, TREES, an_enum, chance_of, columns_of, family, flag, function, guarded, row, tuple_of,
    variant,
)


# Slices and arrays.


@family(12, 24, 48, ten=240)
def slices_with_one_true(count):
    """One item that holds, at each place from the front and from the back."""
    arms = ["[" + "_, " * i + "true, ..]" for i in range(count)]
    arms += ["[.., true" + ", _" * i + "]" for i in range(count)]
    return function("&[bool]", arms + ["_"])


def suffixes(count):
    """Slices whose last item that does not hold stands further and further from the back."""
    return ["[.., false" + ", true" * i + "]" for i in range(count)]


@family(16, 32, 64, ten=250)
def slices_from_the_back_open(count):
    """Slices by their last items, without a wildcard behind them."""
    return function("&[bool]", suffixes(count))


@family(16, 32, 64, ten=250)
def slices_from_the_back(count):
    """Slices by their last items, and a wildcard."""
    return function("&[bool]", suffixes(count) + ["_"])


@family(16, 32, 64, ten=250)
def slices_from_the_front(count):
    """Slices by their first items, and a wildcard."""
    return function("&[bool]", ["[" + "true, " * i + "false, ..]" for i in range(count)] + ["_"])


@family(2, 3, 4, ten=6)
def slices_in_slices(depth):
    """Slices in slices, with six patterns at each depth."""
    patterns = ["true", "false"]
    for _ in range(depth):
        first, last = patterns[0], patterns[-1]
        patterns = ["[]", f"[{first}]", f"[{last}, ..]", f"[.., {first}]", f"[{first}, .., {last}]"]
        patterns.append(f"[_, {last}, .., {first}, _]")
    return function("&[" * depth + "bool" + "]" * depth, patterns + ["_"])


@family(8, 16, 32, ten=120)
def slices_around_a_rest(count):
    """Items that hold before and behind a rest, N in all, and a wildcard."""
    arms = ["[" + "true, " * i + ".." + ", true" * (count - i) + "]" for i in range(count + 1)]
    return function("&[bool]", arms + ["_"])


@family(8, 16, 32, ten=120)
def slices_of_two_kinds_around_a_rest(count):
    """Items that hold before a rest and items that do not behind it, N in all, and a wildcard."""
    arms = ["[" + "true, " * i + ".." + ", false" * (count - i) + "]" for i in range(count + 1)]
    return function("&[bool]", arms + ["_"])


def items_at_both_ends(count, first):
    """Slices that begin with some items that hold and end with some that do not, from so many of each on."""
    numbers = range(first, count)
    return ["[" + "true, " * front + ".." + ", false" * back + "]" for front in numbers for back in numbers]


@family(8, 12, 16, ten=100)
def slices_by_both_ends(count):
    """Slices by their first and last items at once, and a wildcard."""
    return function("&[bool]", items_at_both_ends(count, 0) + ["_"])


@family(6, 8, 10, ten=100)
def slices_by_both_ends_open(count):
    """Slices by their first and last items at once, one of each at least: the missing cases are many."""
    return function("&[bool]", items_at_both_ends(count, 1))


@family(25, 50, 100, ten=255)
def array_by_both_ends_open(count):
    """One item that holds, at each place from the front and from the back of a large array."""
    arms = ["[" + "_, " * i + "true, ..]" for i in range(count)]
    return function("[bool; 4294967295]", arms + ["[.., true" + ", _" * i + "]" for i in range(count)])


def two_nests(depth, first, second):
    """Two patterns of slices in slices, made by two forms, whose deepest ranges touch beside different flags."""
    patterns = []
    for form, leaf in ((first, "(0..=5, true)"), (second, "(5..=9, false)")):
        for _ in range(depth):
            leaf = form.replace("#", leaf)
        patterns.append(leaf)
    return function("&[" * depth + "(u8, bool)" + "]" * depth, patterns + ["_"])


@family(8, 12, 16, ten=58)
def first_items_in_slices(depth):
    """Two patterns of first items in slices in slices, which have their rests at different places."""
    return two_nests(depth, "[#, _, .., _]", "[#, .., _, _]")


@family(3, 4, 5, ten=12)
def both_items_in_slices(depth):
    """Two patterns of two items in slices in slices, at both ends in one and at the back in the other."""
    return two_nests(depth, "[#, .., #]", "[.., #, #]")


@family(64, 128, 255, ten=255)
def slices_by_length(count):
    """Slices of each length, and the longer ones."""
    arms = ["[" + ", ".join("_" * i) + "]" for i in range(count)] + ["[" + "_, " * count + "..]"]
    return function("&[u8]", arms)


# Many places.


@family(4, 8, 16, ten=160)
def one_arm_of_places(count):
    """One arm of 256 N numbers in arrays."""
    return function(columns_of("[u8; 256]", count), [columns_of("[" + "1, " * 256 + "]", count), "_"])


@family(2, 4, 8, ten=80)
def ten_arms_of_places(count):
    """Ten arms of 256 N numbers in arrays, with one number in each."""
    arms = [columns_of("[" + f"{number}, " * 256 + "]", count) for number in range(10)]
    return function(columns_of("[u8; 256]", count), arms + ["_"])


@family(16, 32, 64, ten=256)
def deep_names(count):
    """256 N names in one pattern, behind 58 tuples of one part."""
    names = ", ".join("[" + ", ".join(f"x{i}_{j}" for j in range(256)) + "]" for i in range(count))
    parameter = "(" * 58 + f"[[u8; 256]; {count}]" + ",)" * 58
    return function(parameter, ["(" * 58 + f"[{names}]" + ",)" * 58])


@family(64, 128, 255, ten=255)
def struct_of_fields(count):
    """Twenty arms that name all fields of a struct, each with a number at one field."""
    declared = "pub struct S { " + ", ".join(f"pub a{i}: u8" for i in range(count)) + " }\n"
    arms = []
    for number in range(20):
        heads = (f"a{i}: {number if i == number else '_'}" for i in range(count))
        arms.append("S { " + ", ".join(heads) + " }")
    return function("S", arms + ["_"], declared)


@family(100, 200, 400, ten=2000)
def diagonal_in_tuples(count):
    """Flags in tuples of 200, with one that holds in each row."""
    groups = (count + 199) // 200
    wild = columns_of("_", 200)

    def arm(place):
        return tuple_of(row(200, {place % 200: "true"}) if group == place // 200 else wild for group in range(groups))

    parameter = tuple_of([columns_of("bool", 200)] * groups)
    return function(parameter, [arm(place) for place in range(count)] + ["_"])


@family(64, 128, 255, ten=255)
def diagonal(count):
    """Flags, with one that holds in each row."""
    return function(columns_of("bool", count), [row(count, {i: "true"}) for i in range(count)] + ["_"])


@family(32, 64, 128, ten=255)
def triangle(count):
    """Row i has A at column i and B at all columns behind it."""
    arms = []
    for i in range(count):
        arms.append(row(count, {i: "Mode::Day"} | {j: "Mode::Night" for j in range(i + 1, count)}))
    return function(columns_of("Mode", count), arms + ["_"], MODE)


@family(8, 16, 32, ten=250)
def neighbours_differ(count):
    """Each flag that holds beside the next one that does not, from the last column to the first."""
    arms = [row(count, {i: "true", (i + 1) % count: "false"}) for i in reversed(range(count))]
    return function(columns_of("bool", count), arms + ["_"])


@family(12, 16, 20, ten=250)
def neighbours_differ_closed(count):
    """Each pair of neighbours that differ, and then the two rows of equal flags."""
    pairs = [(i, held) for i in range(count) for held in (True, False)]
    arms = [row(count, {i: flag(held), (i + 1) % count: flag(not held)}) for i, held in pairs]
    return function(columns_of("bool", count), arms + [columns_of("true", count), columns_of("false", count)])


@family(8, 12, 16, ten=120)
def mirrored_columns(count):
    """Rows of one variant at a column and at its mirror image."""
    heads = [(i, f"Three::{name}") for i in range(count) for name in "AB"]
    arms = [row(count, {i: head, count - 1 - i: head}) for i, head in heads]
    return function(columns_of("Three", count), arms + ["_"], THREE)


@family(8, 16, 32, ten=120)
def pairs_of_halves(count):
    """One flag of the first half holds, and the same of the second half."""
    arms = [row(2 * count, {i: "true", count + i: "true"}) for i in range(count)]
    return function(columns_of("bool", 2 * count), arms + ["_"])


@family(8, 16, 32, ten=120)
def pairs_of_halves_twice(count):
    """The rows of pairs_of_halves twice: the second time all are unreachable."""
    arms = [row(2 * count, {i: "true", count + i: "true"}) for i in range(count)]
    return function(columns_of("bool", 2 * count), arms + arms + ["_"])


@family(8, 10, 12, ten=120)
def halves_differ(count):
    """One flag differs from that of the other half."""
    pairs = [(i, held) for i in range(count) for held in (True, False)]
    arms = [row(2 * count, {i: flag(held), count + i: flag(not held)}) for i, held in pairs]
    return function(columns_of("bool", 2 * count), arms + ["_"])


# Texts, names and references.


@family(500, 1000, 2000, ten=4000)
def texts_with_one_prefix(count):
    """N texts that begin with the same N bytes."""
    return function("&str", [f'"{"p" * count}{i}"' for i in range(count)] + ["_"])


@family(500, 1000, 2000, ten=5000)
def texts_that_are_prefixes(count):
    """Texts of 0 to N - 1 bytes, each the beginning of the next."""
    return function("&str", ['"' + "p" * i + '"' for i in range(count)] + ["_"])


@family(128, 256, 512)
def three_texts(count):
    """Rows of two random words out of eight in three columns."""
    chance, arms = chance_of("three_texts", count), []
    for _ in range(count):
        arms.append(row(3, {column: f'"w{chance.randrange(8)}"' for column in chance.sample(range(3), 2)}))
    return function(columns_of("&str", 3), arms + ["_"])


@family(16, 32, 64)
def name_of_marks(count):
    """A name with a thousand combining marks N times, none in its place."""
    name = "a" + "\u0315\u0300\u0316" * (1000 * count // 3)
    return f"pub fn f({name}: bool) -> u32 {{ match {name} {{ _ => 1, }} }}\n"


@family(15, 30, 60, ten=60)
def references_to_literals(depth):
    """Forty numbers behind references to references."""
    return function("&" * depth + "u8", ["&" * depth + str(i) for i in range(40)] + ["_"])


@family(15, 30, 60, ten=60)
def references_to_pairs(depth):
    """A flag and a reference to such a pair, and so on: one flag holds in each row."""
    parameter, arms = "bool", []
    for _ in range(depth):
        parameter = f"&(bool, {parameter})"
    for level in range(depth):
        arms.append("(_, " * level + "(true, _)" + ")" * level)
    return function(parameter, arms + ["_"])


# Decision trees.


@family(8, 16, 32, ten=200)
def variant_in_the_last_column(count):
    """Random flags, and a variant in the last column that alone tells the rows apart."""
    chance, arms = chance_of("variant_in_the_last_column", count), []
    for i in range(count):
        chosen = chance.sample(range(count), max(2, count // 2))
        arms.append(row(count + 1, {column: flag(chance.random() < 0.5) for column in chosen} | {count: variant(i)}))
    return function(tuple_of(["bool"] * count + ["E"]), arms + ["_"], an_enum("E", count))


@family(8, 12, 16, ten=120, hard=TREES)
def three_flags_a_row(count):
    """As many rows as flags, each of three random flags that hold."""
    chance = chance_of("three_flags_a_row", count)
    arms = [row(count, {column: "true" for column in chance.sample(range(count), 3)}) for _ in range(count)]
    return function(columns_of("bool", count), arms + ["_"])


@family(8, 16, 32, ten=120)
def all_true_first(count):
    """A row of flags that all hold, and then rows of one flag that does not, beside a name."""
    arms = [columns_of("true", count)]
    arms += [row(count, {i: "false", (i + 1) % count: "y"}) for i in range(count)]
    return function(columns_of("bool", count), arms + ["_"])


@family(8, 16, 32, ten=120)
def guarded_columns(count):
    """Guarded rows of one flag that holds."""
    return function(columns_of("bool", count), guarded(row(count, {i: "true"}) for i in range(count)) + ["_"])


@family(8, 10, 12, ten=40, hard=TREES)
def guarded_pairs_of_flags(count):
    """Guarded rows of one flag that holds and another that does not: each value asks another set of guards."""
    pairs = [(i, j) for i in range(count) for j in range(count) if i != j]
    arms = guarded(row(count, {i: "true", j: "false"}) for i, j in pairs)
    return function(columns_of("bool", count), arms + ["_"])


@family(6, 8, 10, ten=120, hard=TREES)
def guarded_overlapping_alternatives(count):
    """One guarded arm of a wildcard or a flag in each column: a guard is asked for each choice."""
    arms = alternatives_in_columns(count, lambda *_: ("_", "true"))
    return function(columns_of("bool", count), guarded(arms) + ["_"])


# Values.


@family(12, 24, 48, ten=250, value=lambda count: (columns_of("E::B(1)", count), ""), hard=TREES)
def value_of_alternatives(count):
    """One arm of two alternatives in each column, and one value."""
    return alternatives_that_bind(count)


@family(8, 16, 32, ten=250, value=lambda count: (columns_of("true", count), "fffff"), hard=TREES)
def value_of_guarded_alternatives(count):
    """One guarded arm of a wildcard or a flag in each column, a value, and five answers."""
    return guarded_overlapping_alternatives(count)


@family(12500, 25000, 50000, value=lambda count: ("[" + ", ".join([f"V{count - 1}"] * 1000) + "]", ""))
def value_of_many_variants(count):
    """A thousand values of the last variant of a large enum."""
    return function("[E; 1000]", ["_"], an_enum("E", count))
