"""Pairs of rules that differ only in formulas after an empty pattern. They are the same at each run."""
from functools import cache
from random import Random

from compare import expect, used_patterns
from equation_shapes import counters, drawn, tangled
from equations import is_dropping, rows
from merging_shapes import equal_parts, late_drops
from reason_shapes import branches, parted, returning
from rules import Refusal, read_rule
from shapes import BOTH, MAX, after, pattern, random_formula, variable

# The kinds of rules that pairs are made of, and how many pairs of each kind there are.
MAKES = [branches, counters, equal_parts, late_drops, returning, tangled]
OF_A_KIND = 55

# So many draws are enough for a pair.
DRAWS = 10000


def with_others(random, rule, part, maxes):
    """A part of a rule with so many maxes around it, and after each of its necessities with an empty pattern another formula."""
    if part.kind == 4:
        return BOTH + with_others(random, rule, part.left, maxes) + with_others(random, rule, part.right, maxes)
    if part.kind == 5 and rule.patterns[part.pattern].is_empty():
        return after(part.pattern) + random_formula(random, random.randrange(1, 12), len(rule.patterns), [True] * maxes)
    if part.kind == 5:
        return after(part.pattern) + with_others(random, rule, part.body, maxes)
    if part.kind == 6:
        return MAX + with_others(random, rule, part.body, maxes + 1)
    return variable(part.depth) if part.kind == 7 else bytes([part.kind])


def drawn_pair(random, make):
    """A rule that can drop a scan and has a necessity with an empty pattern, and the same with other formulas after each of those.

    The other may have too many nodes, and then another is drawn. For no other reason may it be refused.
    """
    for _ in range(DRAWS):
        one = drawn(random, make, 1)[0]
        rule = read_rule(one)
        if any(p.is_empty() for p in used_patterns(rule)) and is_dropping(one):
            other = parted(one)[0] + with_others(random, rule, rule.formula, 0)
            answer = rows(other)
            if isinstance(answer, Refusal):
                expect(answer.number == 4, "a pair of which one rule is refused", list(one), list(other), answer.number)
            elif other != one:
                return one, other
    raise SystemExit(f"no pair in {DRAWS} draws")


def with_all_kinds(data):
    """The rule with all kinds in the place of no kind in each of its patterns."""
    patterns = [pattern(p.mask or 255, p.first, p.last) for p in read_rule(data).patterns]
    return b"".join(patterns) + parted(data)[1]


@cache
def pairs():
    random = Random("empty pairs")
    return [drawn_pair(random, make) for make in MAKES for _ in range(OF_A_KIND)]
