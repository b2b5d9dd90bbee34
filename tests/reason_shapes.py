"""Rules for their reasons: overlapping branches, ff nodes that variables bring in again, ff at node 63, and a rule
with one fault for each refusal."""
from equation_shapes import afters, all_hold, wide_patterns
from rules import MOST_NODES, numbered, read_rule
from shapes import ANY, BOTH, FALSITY, MAX, ONE, TRUTH, after, pattern, random_mask, variable


def parted(rule):
    """The patterns of a rule and its formula, as bytes."""
    start = len(ANY) * len(read_rule(rule).patterns)
    return rule[:start], rule[start:]


def node_count(rule):
    return len(numbered(read_rule(rule).formula))


def branches(random):
    """Parts side by side under patterns that overlap. Most end with ff. Half of the rules are a max, and have its
    variable in one more part."""
    count = random.randrange(2, 6)
    ends = [random.choice([FALSITY, FALSITY, FALSITY, TRUTH]) for _ in range(random.randrange(2, 7))]
    parts = [afters(random, count, 3) + end for end in ends]
    if random.randrange(2) > 0:
        return wide_patterns(random, count) + all_hold(parts)
    parts.insert(random.randrange(len(parts) + 1), after(0) + variable(0))
    return wide_patterns(random, count) + MAX + all_hold(parts)


def brought_in(random, outer, deeper):
    """A max below so many others, of two parts. One is ff after a code of pattern 0 or 1. The other leads, after a
    code of 2 or 3, to a max of the same kind, or at last to such an ff beside the variable of one of the maxes."""
    forbidden = [after(random.randrange(2)) + FALSITY for _ in range(2)]
    if deeper > 0:
        inner = brought_in(random, outer + 1, deeper - 1)
    else:
        ends = [forbidden[1], variable(random.randrange(outer + 1))]
        inner = all_hold(random.sample(ends, 2))
    parts = [forbidden[0], after(random.randrange(2, 4)) + inner]
    return MAX + all_hold(random.sample(parts, 2))


def returning(random):
    """Maxes in maxes. A variable brings in ff nodes again, some of lower numbers than the one beside it."""
    forbidden = pattern(random_mask(random, 7), 0, random.randrange(9, 20)) + pattern(7, 5, random.randrange(5, 32))
    leading = pattern(56, 0, 31) + pattern(random.choice([24, 40, 255]), 0, 31)
    return forbidden + leading + brought_in(random, 0, random.randrange(5))


def filled_up(rule):
    """The rule below so many maxes that its last node is node 63."""
    patterns, formula = parted(rule)
    return patterns + MAX * (MOST_NODES - node_count(rule)) + formula


def counting(number):
    """The formula of the paper's second family with m = 10, over the patterns from that number on: 1,024 equations."""
    return MAX + all_hold([after(number) + variable(0), after(number + 1) + after(number) * 10 + TRUTH])


def with_faults(rule):
    """By the number of a refusal, the rule with that fault. The formula is still there, but for its last byte in the
    first. It has at most 47 nodes, and at most 30 patterns."""
    patterns, formula = parted(rule)
    count = len(read_rule(rule).patterns)
    beside = patterns + BOTH + formula
    return {
        1: rule[:-1],
        2: beside + bytes([8]),
        3: rule + TRUTH,
        4: patterns + MAX + filled_up(rule)[len(patterns) :],
        5: patterns + pattern(1, 5, 32) + formula,
        6: beside + after(count) + TRUTH,
        7: beside + MAX + variable(0),
        8: beside + FALSITY,
        9: patterns + ANY + ONE + BOTH + formula + counting(count),
    }
