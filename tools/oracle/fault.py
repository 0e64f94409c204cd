"""Refusals: a broken rule with its place."""

NAMES = {
    1: "not-utf8", 2: "bad-token", 3: "open-comment", 4: "open-text", 5: "bad-escape", 6: "syntax", 7: "too-long",
    9: "too-wide", 10: "name-twice", 11: "variant-twice", 12: "field-twice", 13: "unknown-type", 14: "unsized-place",
    15: "contains-itself", 16: "array-length", 17: "type-arguments", 18: "bad-use", 19: "unsupported-attribute",
    20: "unknown-name", 21: "name-is-no-binding", 22: "wrong-type", 23: "wrong-count", 24: "unknown-field",
    25: "field-written-twice", 26: "field-missing", 27: "rest-twice", 28: "literal-out-of-range", 29: "range-empty",
    30: "name-bound-twice", 31: "alternatives-differ", 32: "mode-written", 33: "open-range-in-slice",
    34: "deref-needs-reference", 35: "unsupported-pattern", 36: "endless-type", 40: "value-syntax", 41: "value-type", 42: "unknown-function",
}


class Fault(Exception):
    """A broken rule; what it does not tell is None."""

    def __init__(self, rule, at=None, item=None, arm=None):
        super().__init__(f"rule {rule} at {at}, item {item}, arm {arm}")
        self.rule, self.at, self.item, self.arm = rule, at, item, arm

    def tree(self):
        """The refusal as it is written."""
        return {"arm": self.arm, "at": self.at, "item": self.item, "name": NAMES[self.rule], "rule": self.rule}
