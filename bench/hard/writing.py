"""What the families of this folder share: the words of a source, and the list of the families."""
import random

MODE = "pub enum Mode { Day, Night }\n"
# The commands that no program does in polynomial time, since the answer or the search for it is exponential.
BOTH = ("check", "trees")
TREES = ("trees",)
THREE = "pub enum Three { A, B, C }\n"
FAMILIES = {}
FACTS = {"hard": (), "overlaps": False, "value": None, "ten": None}


class Family:
    """A family of sources: its name, three sizes, the function that makes a source, and its facts.

    hard      the commands that take exponential time whatever a program does
    overlaps  the overlaps of ranges are what takes time
    value     makes the value and the answers of guards that `eval` takes, of a size
    ten       the size that stands for ten times the greatest one, where ten times that cannot be written
    """

    def __init__(self, make, sizes, facts):
        self.name, self.make, self.sizes = make.__name__, make, sizes
        for fact, usual in FACTS.items():
            setattr(self, fact, facts.get(fact, usual))
        self.ten = self.ten or 10 * sizes[-1]

    def about(self):
        """What the family is, in a sentence."""
        return " ".join(self.make.__doc__.split())


def family(*sizes, **facts):
    """Puts a function of a size into the list of families."""

    def put(make):
        FAMILIES[make.__name__] = Family(make, sizes, facts)
        return make

    return put


def function(parameter, arms, before="", name="f"):
    """One function over these arms, behind its declarations."""
    lines = "".join(f"        {arm} => {number},\n" for number, arm in enumerate(arms))
    return f"{before}pub fn {name}(x: {parameter}) -> u32 {{\n    match x {{\n{lines}    }}\n}}\n"


def an_enum(name, count):
    """An enum of so many variants without fields."""
    return f"pub enum {name} {{ " + ", ".join(f"V{number}" for number in range(count)) + " }\n"


def tuple_of(parts):
    """A tuple of these types or patterns."""
    parts = list(parts)
    return "(" + ", ".join(parts) + (",)" if len(parts) == 1 else ")")


def columns_of(kind, count):
    """The tuple type of so many columns of one type."""
    return tuple_of([kind] * count)


def row(count, heads):
    """A row of so many columns, with these heads by column and wildcards elsewhere."""
    return tuple_of(heads.get(column, "_") for column in range(count))


def guarded(arms):
    """The arms, each with a guard."""
    return [f"{arm} if guard()" for arm in arms]


def flag(held):
    """The pattern of a truth value."""
    return "true" if held else "false"


def variant(number, name="E"):
    """The pattern of a variant without fields."""
    return f"{name}::V{number}"


def either(patterns):
    """The or-pattern of these alternatives."""
    return " | ".join(patterns)


def span(first, last):
    """The range of the numbers from the first to the last."""
    return f"{first}..={last}"


def random_span(chance, numbers):
    """A range between two random numbers."""
    return span(*sorted((chance.randrange(numbers), chance.randrange(numbers))))


def chance_of(name, size):
    """The random numbers of a family and a size: the same at each run."""
    return random.Random(f"{name} {size}")
