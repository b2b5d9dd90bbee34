"""The records of rule files, and whole rules made of them: the longest ones, and ones taken at random."""

TRUTH = bytes([2])
FALSITY = bytes([3])
BOTH = bytes([4])
MAX = bytes([6])


def pattern(mask, first, last):
    return bytes([1, mask, first, last])


def after(number):
    return bytes([5, number])


def variable(depth):
    return bytes([7, depth])


ANY = pattern(255, 0, 31)
ONE = pattern(1, 5, 5)
FULL = ONE * 32

# The longest beginning that has no fault: whatever byte comes next is refused.
LONGEST = FULL + after(31) * 64


def telling_patterns():
    """Patterns with every mask, some of which go round, and with every two slots."""
    masks = [pattern(mask, mask % 7, mask % 25) for mask in range(256)]
    slots = [pattern(1 << (first + last) % 8, first, last) for first in range(32) for last in range(32)]
    return masks + slots


def random_mask(random, most=255):
    """The mask of a pattern: 0, so that the pattern is empty, for one in eight, and else any up to the most."""
    return 0 if random.randrange(8) == 0 else random.randrange(1, most + 1)


def round_pattern(random):
    """A pattern that goes round: with two slots, with all 32, or with any number."""
    first = random.choice([31, random.randrange(1, 32), random.randrange(1, 32)])
    last = random.choice([0, first - 1, random.randrange(first)])
    return pattern(random_mask(random), first, last)


def random_pattern(random):
    if random.randrange(5) < 2:
        return round_pattern(random)
    first = random.choice([0, 31, random.randrange(32)])
    last = random.choice([first, 31, random.randrange(first, 32)])
    return pattern(random_mask(random), first, last)


def random_patterns(random, count):
    return b"".join(random_pattern(random) for _ in range(count))


def random_formula(random, nodes, patterns, scope, is_bold=False):
    """A formula of so many nodes. The scope says of each enclosing max, innermost first, whether its variable
    may be used here. A bold formula uses variables that no necessity guards too."""
    if nodes == 1:
        usable = [depth for depth, is_usable in enumerate(scope) if is_usable]
        if usable and random.randrange(4) > 0:
            return variable(random.choice([usable[0], usable[-1], random.choice(usable)]))
        return random.choice([TRUTH, FALSITY])
    kinds = [6]
    if nodes > 2:
        kinds += [4, 4]
    if patterns > 0:
        kinds += [5, 5]
    kind = random.choice(kinds)
    if kind == 4:
        left = random.randrange(1, nodes - 1)
        parts = [random_formula(random, size, patterns, scope, is_bold) for size in (left, nodes - 1 - left)]
        return BOTH + parts[0] + parts[1]
    if kind == 5:
        number = random.choice([0, patterns - 1, random.randrange(patterns)])
        return after(number) + random_formula(random, nodes - 1, patterns, [True] * len(scope), is_bold)
    return MAX + random_formula(random, nodes - 1, patterns, [is_bold] + scope, is_bold)


def random_rule(random, patterns, nodes, is_bold=False):
    return random_patterns(random, patterns) + random_formula(random, nodes, patterns, [], is_bold)


def random_rules(random):
    """Rules of every small size and of the largest."""
    rules = []
    for patterns in (0, 1, 2, 3, 8, 31, 32):
        for nodes in (1, 2, 3, 4, 5, 8, 13, 21, 34, 63, 64):
            rules += [random_rule(random, patterns, nodes) for _ in range(6)]
    return rules


def bad_rules(random):
    """Rules of too many nodes, and rules with variables that no necessity guards."""
    rules = []
    for patterns in (0, 1, 5, 14, 32):
        for nodes in (65, 66, 90):
            rules += [random_rule(random, patterns, nodes) for _ in range(4)]
        for nodes in (2, 3, 5, 9, 20, 40, 64):
            rules += [random_rule(random, patterns, nodes, True) for _ in range(6)]
    return rules


def longest_rules(random):
    """Rules of 32 patterns and 64 nodes that take 255 bytes, the most there can be, and one of 254."""

    def afters(count):
        return b"".join(after(random.randrange(32)) for _ in range(count))

    formulas = [afters(63) + TRUTH]
    for above in (0, 30, 61):
        formulas.append(afters(above) + MAX + afters(62 - above) + variable(0))
    formulas.append(MAX + BOTH + afters(20) + variable(0) + afters(40) + variable(0))
    return [random_patterns(random, 32) + formula for formula in formulas]
