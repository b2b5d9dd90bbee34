"""Rules for their equations: the paper's families, small formulas, maxes in maxes, and rules at the limit."""
from functools import partial
from itertools import product

import known
import known_equations
import known_page
from equations import CODES, DESK, PAGE, PROGRAMS, rows
from rules import Refusal, read_rule
from shapes import ANY, BOTH, FALSITY, MAX, TRUTH, after, pattern, variable
from shapes import random_mask, random_patterns, telling_patterns


def all_hold(parts):
    """All parts hold: a "both" of all but the last, which is one of the same kind, and of the last."""
    return BOTH * (len(parts) - 1) + b"".join(parts)


def families():
    """The paper's two: n necessities of any code and then tt, and the count of m codes since each code 5."""
    chains = [ANY + after(0) * n + TRUTH for n in range(65)]
    return chains + [known.bytes_of(known.counted(m)) for m in range(10)]


def small_formulas(nodes, scope=()):
    """Every formula of so many nodes over two patterns. The scope says of each max around it, innermost first,
    whether it is guarded."""
    if nodes == 1:
        usable = [variable(depth) for depth, is_guarded in enumerate(scope) if is_guarded]
        return [TRUTH, FALSITY] + usable
    formulas = [MAX + body for body in small_formulas(nodes - 1, (False,) + scope)]
    for head in (after(0), after(1)):
        formulas += [head + body for body in small_formulas(nodes - 1, (True,) * len(scope))]
    for size in range(1, nodes - 1):
        parts = product(small_formulas(size, scope), small_formulas(nodes - 1 - size, scope))
        formulas += [BOTH + left + right for left, right in parts]
    return formulas


def small_rules(nodes):
    """The small formulas over two patterns, by turns a pair that overlaps, one of which the first goes round, and the same
    with a second that is empty."""
    pairs = [pattern(3, 0, 9) + pattern(6, 5, 31), pattern(3, 28, 9) + pattern(6, 5, 30), pattern(3, 28, 9) + pattern(0, 5, 30)]
    return [pairs[number % 3] + formula for number, formula in enumerate(small_formulas(nodes))]


def in_groups(items, size):
    """The items in groups of a size, the first of them once more to fill the last group."""
    items = items + items[: -len(items) % size]
    return [items[start : start + size] for start in range(0, len(items), size)]


def pattern_rules(random):
    """Every mask and every two slots: 32 patterns one after another, and four side by side."""
    patterns = telling_patterns()
    chain = b"".join(after(number) for number in range(32)) + TRUTH
    rules = [b"".join(group) + chain for group in in_groups(patterns, 32)]
    random.shuffle(patterns)
    four = all_hold([after(number) + after(3 - number) + FALSITY for number in range(4)])
    return rules + [b"".join(group) + four for group in in_groups(patterns, 4)]


def wide_slots(random):
    """A first and a last slot with many between them, round or not."""
    if random.randrange(5) < 2:
        first = random.randrange(12, 32)
        return first, random.randrange(4, first)
    return random.randrange(9), random.randrange(15, 32)


def wide_patterns(random, count):
    """Patterns most of which overlap: those that aren't empty have many kinds."""
    masks = [random_mask(random) for _ in range(count)]
    return b"".join(pattern(mask and mask | random.randrange(256), *wide_slots(random)) for mask in masks)


def afters(random, patterns, most):
    return b"".join(after(random.randrange(patterns)) for _ in range(random.randrange(1, most + 1)))


def counters(random):
    """A max of "after any code, the variable" and of parts like the paper's second, with other patterns and ends."""
    patterns = random.randrange(1, 5)
    parts = [after(0) + variable(0)]
    for _ in range(random.randrange(2, 6)):
        end = random.choice([TRUTH, FALSITY, variable(0), variable(0)])
        parts.append(afters(random, patterns, random.choice([3, 6, 9])) + end)
    return ANY + wide_patterns(random, patterns - 1) + MAX + all_hold(parts)


def max_in_max(random, patterns, outer, deeper):
    """A max below so many others. Each of its parts ends with tt, ff, a variable or a max of the same kind, and has
    necessities before its end, or else is the variable of a max further out."""
    parts = []
    for _ in range(random.randrange(1, 4)):
        ends = [TRUTH, FALSITY, variable(0)] + [variable(depth) for depth in range(outer + 1)]
        if deeper > 0:
            ends += [max_in_max(random, patterns, outer + 1, deeper - 1)] * 4
        parts.append(afters(random, patterns, 3) + random.choice(ends))
    if outer > 0 and random.randrange(2) > 0:
        parts.insert(random.randrange(len(parts) + 1), variable(random.randrange(1, outer + 1)))
    return MAX + all_hold(parts)


def tangled(random):
    count = random.randrange(1, 6)
    make = random.choice([wide_patterns, random_patterns])
    return make(random, count) + max_in_max(random, count, 0, random.randrange(1, 5))


def drawn(random, make, count):
    """So many rules of a kind, taken at random: those of too many nodes are passed over."""
    rules = []
    while len(rules) < count:
        rule = make(random)
        if not isinstance(read_rule(rule), Refusal):
            rules.append(rule)
    return rules


def padded(rule, most):
    """The rule behind necessities of any code, its pattern 0, each of which adds an equation: with one equation
    fewer than the most, with the most and with one too many, where the nodes allow it."""
    start = 4 * len(read_rule(rule).patterns)
    head, formula = rule[:start], rule[start:]
    missing = most - len(rows(rule))
    longer = [head + after(0) * count + formula for count in range(max(missing - 1, 0), missing + 2)]
    return [file for file in longer if not isinstance(read_rule(file), Refusal)]


def padded_counters(random, count, most):
    """Of so many rules, taken at random, those with over five eighths of the most equations, padded."""
    rules = []
    for rule in drawn(random, counters, count):
        table = rows(rule)
        if not isinstance(table, Refusal) and 8 * len(table) > 5 * most:
            rules += padded(rule, most)
    return rules


def limit_rules(random):
    """Rules with about as many equations as the programs take."""
    rules = [known.bytes_of(known_equations.late(n)) for n in range(20, 29)]
    return rules + padded_counters(random, 250, PROGRAMS.most)


def registers(random, older, younger):
    """The rule of that name in known_wide.py over other patterns, and with so many codes before each of the two that it drops."""
    kinds, slots = random.sample(range(8), 4), wide_slots(random)
    masks = [sum(2**kind for kind in kinds[:count]) for count in (4, random.randrange(1, 4))]
    heads = b"".join(pattern(mask, *slots) for mask in masks) + random_patterns(random, 2)
    ends = [after(end) + FALSITY for end in (3, 4)]
    parts = [after(1) + after(0) * (older - 1) + ends[0], after(2) + after(0) * (younger - 1) + ends[1]]
    return ANY + heads + MAX + all_hold([after(0) + variable(0)] + parts)


def wide_rules(random):
    """Rules with about 256 equations, and with about as many as there may be."""
    rules = []
    for older, younger, most in ((6, 3, CODES), (7, 5, DESK.most)):
        for rule in drawn(random, partial(registers, older=older, younger=younger), 5):
            rules += padded(rule, most)
    return rules


def page_rules(random):
    """Rules with about as many as the rule page shows."""
    rules = [known.bytes_of(known_page.late(n)) for n in range(5, 11)]
    return rules + padded_counters(random, 120, PAGE.most)
