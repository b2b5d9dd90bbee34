"""Rules for merging: parts that drop late, so that many equations stay, and equal or nearly equal parts at several places."""
from equation_shapes import afters, all_hold, drawn, wide_patterns
from equations import is_dropping
from shapes import ANY, FALSITY, MAX, after, pattern, random_formula, random_patterns, variable


def late_drops(random):
    """A max of "after any code, the variable" and of parts that after some codes drop those of a pattern."""
    patterns = random.randrange(2, 6)
    make = random.choice([wide_patterns, random_patterns])
    parts = [after(0) + variable(0)]
    for _ in range(random.randrange(1, 4)):
        taken = after(random.randrange(1, patterns)) + after(0) * random.randrange(8)
        parts.append(taken + afters(random, patterns, 2) + random.choice([FALSITY, FALSITY, variable(0)]))
    return ANY + make(random, patterns - 1) + MAX + all_hold(parts)


def equal_parts(random):
    """One formula after several patterns."""
    patterns = random.randrange(2, 6)
    formula = random_formula(random, random.randrange(3, 14), patterns, [True])
    heads = [afters(random, patterns, 2) for _ in range(random.randrange(2, 5))]
    return random_patterns(random, patterns) + MAX + all_hold([head + formula for head in heads])


def near_parts(random):
    """Branches whose first pattern has one slot or two, each further than the one before by one, and whose rest is the
    same but for the last pattern of some."""
    branches = random.randrange(2, 14)
    start, width = random.randrange(32), random.randrange(2)
    heads = [pattern(1, (start + i) % 32, (start + i + width) % 32) for i in range(branches)]
    rests = [random.choice([branches, branches, branches + 1]) for _ in range(branches)]
    parts = [after(i) + after(rest) + FALSITY for i, rest in enumerate(rests)]
    return b"".join(heads) + random_patterns(random, 2) + all_hold(parts)


def dropping(random, make, count):
    """So many rules of a kind, taken at random, that have a table in which some code is dropped."""
    rules = []
    while len(rules) < count:
        rule = drawn(random, make, 1)[0]
        if is_dropping(rule):
            rules.append(rule)
    return rules


def merging_rules(random):
    return dropping(random, late_drops, 200) + dropping(random, equal_parts, 100) + dropping(random, near_parts, 50)
