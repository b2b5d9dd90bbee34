"""The rule that joins rules by "both": their patterns one after the other, and all of their formulas."""
from itertools import accumulate

from equation_shapes import all_hold
from reason_shapes import parted
from rules import read_rule
from shapes import BOTH, MAX, after, variable


def shifted(part, by):
    """The bytes of a formula whose patterns stand so many places further."""
    if part.kind == 4:
        return BOTH + shifted(part.left, by) + shifted(part.right, by)
    if part.kind == 5:
        return after(part.pattern + by) + shifted(part.body, by)
    if part.kind == 6:
        return MAX + shifted(part.body, by)
    return variable(part.depth) if part.kind == 7 else bytes([part.kind])


def joined(files):
    """The file of the joined rule. It may have too many patterns, nodes or equations, though none of the files has."""
    rules = [read_rule(data) for data in files]
    starts = accumulate([len(rule.patterns) for rule in rules], initial=0)
    formulas = [shifted(rule.formula, start) for rule, start in zip(rules, starts)]
    return b"".join(parted(data)[0] for data in files) + all_hold(formulas)
