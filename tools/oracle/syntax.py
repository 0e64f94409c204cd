"""The trees that the parser makes."""
from dataclasses import dataclass
from typing import Optional


# Types as they are written. Parentheses are not kept.
@dataclass
class Never:
    pass


@dataclass
class TupleType:
    parts: list


@dataclass
class Reference:
    mutable: bool
    inner: object


@dataclass
class SliceType:
    item: object


@dataclass
class ArrayType:
    item: object
    length: Optional[int]
    suffix: str


@dataclass
class NamedType:
    name: str
    arguments: list


# Patterns. `at` is the offset of the first token; a leading `|` doesn't count.
@dataclass
class Path:
    names: list
    plain: bool

    def is_supported(self):
        return self.plain and len(self.names) <= 2


@dataclass
class Number:
    """A literal: kind is `flag`, `char`, `byte`, `int`, `str` or `other`; `other` is supported nowhere."""

    kind: str
    value: object = None
    suffix: str = ""


@dataclass
class Wild:
    at: int


@dataclass
class Rest:
    at: int


@dataclass
class Literal:
    at: int
    literal: Number


@dataclass
class Named:
    """A name: alone, with `ref` or `mut`, with a pattern behind `@`, or as a field written short."""

    at: int
    name: str
    by_ref: bool = False
    mutable: bool = False
    inner: object = None
    short: bool = False

    def is_bare(self):
        return not (self.by_ref or self.mutable or self.inner or self.short)


@dataclass
class PathPattern:
    at: int
    path: Path


@dataclass
class TupleForm:
    at: int
    path: Path
    items: list


@dataclass
class Field:
    name: str
    attributes: list
    pattern: object


@dataclass
class BraceForm:
    at: int
    path: Path
    fields: list
    rest: bool


@dataclass
class TuplePattern:
    at: int
    items: list


@dataclass
class Group:
    at: int
    inner: object


@dataclass
class SlicePattern:
    at: int
    items: list


@dataclass
class Point:
    at: int
    mutable: bool
    inner: object


@dataclass
class Range:
    at: int
    low: Optional[Number]
    high: Optional[Number]
    closed: bool


@dataclass
class Or:
    at: int
    alternatives: list


def is_rest(pattern):
    """`..`, or `name @ ..`."""
    return isinstance(pattern, Rest) or (isinstance(pattern, Named) and isinstance(pattern.inner, Rest))


def children(pattern):
    """The patterns directly within a pattern, as they are written."""
    if isinstance(pattern, Named):
        return [pattern.inner] if pattern.inner else []
    if isinstance(pattern, (TupleForm, TuplePattern, SlicePattern)):
        return pattern.items
    if isinstance(pattern, BraceForm):
        return [field.pattern for field in pattern.fields]
    if isinstance(pattern, (Group, Point)):
        return [pattern.inner]
    if isinstance(pattern, Or):
        return pattern.alternatives
    return []


def nodes(pattern):
    """A pattern's nodes in reading order."""
    yield pattern
    for child in children(pattern):
        yield from nodes(child)


def levels(pattern):
    """The number of levels of a pattern."""
    return 1 + max([levels(child) for child in children(pattern)], default=0)


# Items.
@dataclass
class FieldDeclaration:
    name: Optional[str]
    attributes: list
    type: object


@dataclass
class Form:
    """kind is `unit`, `tuple` or `brace`."""

    kind: str
    fields: list


@dataclass
class Variant:
    name: str
    attributes: list
    form: Form


@dataclass
class Enum:
    name: str
    variants: list


@dataclass
class Struct:
    name: str
    form: Form


@dataclass
class Use:
    """`names` is None for a glob."""

    owner: str
    names: Optional[list]


@dataclass
class Arm:
    attributes: list
    pattern: object
    guarded: bool


@dataclass
class Function:
    """`star` is the offset of the `*` before the scrutinee, or None."""

    name: str
    parameter: object
    star: Optional[int]
    arms: list


@dataclass
class Item:
    at: int
    attributes: list
    kind: object
