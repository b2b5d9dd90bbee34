"""The rule files on which the reader is tried. They are the same at each run."""
from itertools import product
from random import Random

import known
from shapes import BOTH, FALSITY, FULL, LONGEST, MAX, ONE, TRUTH, after, pattern, variable
from shapes import bad_rules, longest_rules, random_rules, telling_patterns

# Numbers at the edges of what a record's bytes can mean.
EDGES = [0, 1, 2, 3, 4, 5, 6, 7, 8, 16, 31, 32, 33, 63, 64, 127, 128, 255]


def tiny_files():
    """Every file of one byte, many of two, and every file of three that a few kinds make."""
    one = [bytes([a]) for a in range(256)]
    two = [bytes(pair) for pair in product(EDGES, repeat=2)]
    three = [bytes(triple) for triple in product([0, 2, 4, 5, 6, 7], repeat=3)]
    return one + two + three


def pattern_files():
    """Every mask, every two slots, and slots at the edges."""
    good = telling_patterns()
    full = [b"".join(good[i : i + 32]) + TRUTH for i in range(0, len(good), 32)]
    edges = [0, 1, 5, 30, 31, 32, 33, 63, 128, 255]
    return full + [ONE + pattern(*odd) + TRUTH for odd in product((0, 1, 128), edges, edges)]


def limit_formulas():
    """Formulas of 62 to 66 nodes, by several shapes."""
    for nodes in range(62, 67):
        yield after(0) * (nodes - 1) + TRUTH
        yield MAX * (nodes - 1) + TRUTH
        yield MAX + after(0) * (nodes - 2) + variable(0)
        pairs = (nodes - 1) // 2
        top = MAX * (nodes - 1 - 2 * pairs)
        yield top + BOTH * pairs + TRUTH * (pairs + 1)
        yield top + (BOTH + TRUTH) * pairs + TRUTH


def limit_files():
    """The limits of patterns and of nodes, each beside the other."""
    files = [ONE * count + formula for count in (0, 1, 31, 32) for formula in limit_formulas()]
    almost = FULL + after(31) * 63
    files += [almost + end for end in (TRUTH, FALSITY, variable(0), MAX, b"")]
    files += [LONGEST + bytes([byte]) for byte in EDGES]
    return files + [LONGEST]


def pair_files():
    """Every two of a few records, most of them faulty, after each of the beginnings that the checks tell apart."""
    heads = [b"", ONE, FULL, ONE + MAX, ONE + MAX + BOTH, ONE + MAX + after(0)]
    heads += [MAX * 63, MAX * 64, TRUTH, MAX * 63 + TRUTH]
    records = [b"", bytes([8]), ONE, pattern(0, 5, 5), pattern(1, 5, 32), pattern(0, 32, 0)[:3], TRUTH]
    records += [after(0), after(32), variable(0), variable(64)]
    return [head + first + second for head, first, second in product(heads, records, records)]


def max_files():
    """Maxes and then a variable: at once, and with one necessity among the maxes."""
    files = []
    for maxes in range(1, 65):
        for depth in sorted({0, 1, maxes // 2, maxes - 1, maxes, 64, 128, 255}):
            files.append(MAX * maxes + variable(depth))
    for maxes in (1, 2, 3, 4, 31, 61, 62):
        for above in range(maxes + 1):
            below = maxes - above
            for depth in sorted({0, max(below - 1, 0), below, maxes - 1, maxes, 255}):
                files.append(ONE + MAX * above + after(0) + MAX * below + variable(depth))
    return files


def both_files():
    """Variables in both parts of a "both", with a necessity above it, in one part, in each or in none."""
    steps = [b"", after(0), MAX, after(0) + MAX, MAX + after(0)]
    parts = [TRUTH] + [step + variable(depth) for step in steps for depth in (0, 1)]
    heads = [MAX, MAX * 2, after(0) + MAX, MAX + after(0), MAX * 2 + after(0), MAX + after(0) + MAX]
    return [ONE + head + BOTH + left + right for head, left, right in product(heads, parts, parts)]


def both_in_both_files():
    """A "both" as the first or as the second part of another, alone or under a necessity or a max."""
    parts = [step + variable(depth) for step in (b"", after(0)) for depth in (0, 1)]
    inner = [BOTH, after(0) + BOTH, MAX + BOTH]
    files = []
    for head, both, (a, b, c) in product((MAX, MAX * 2), inner, product(parts, repeat=3)):
        files.append(ONE + head + BOTH + both + a + b + c)
        files.append(ONE + head + BOTH + a + both + b + c)
    return files


def chain_files():
    """Up to 20 boths, each the first or each the second part of the one above. Every part has a necessity of its
    own, but for one or none."""
    files = []
    for count in (1, 2, 3, 10, 20):
        for bare in range(count + 2):
            parts = [variable(0) if part == bare else after(0) + variable(0) for part in range(count + 1)]
            files.append(ONE + MAX + BOTH * count + b"".join(parts))
            files.append(ONE + MAX + BOTH + BOTH.join(parts[:-1]) + parts[-1])
    return files


def beginnings(rule):
    return [rule[:length] for length in range(len(rule))]


def noise(random, most):
    return bytes(random.randrange(256) for _ in range(random.randrange(1, most + 1)))


def replaced(rule, at, byte):
    return rule[:at] + bytes([byte]) + rule[at + 1 :]


def changed(random, rule):
    """The rule with one byte changed, to any byte or to one at the edges."""
    at = random.randrange(len(rule))
    return replaced(rule, at, random.choice([random.randrange(256), random.choice(EDGES)]))


def pool_files():
    """The paper's rule cut short, and with each of its bytes changed."""
    pool = known.bytes_of(known.POOL)
    return beginnings(pool) + [replaced(pool, at, byte) for at, byte in product(range(len(pool)), EDGES)]


def spoiled_files(random, rules):
    """Each rule with bytes after it, with one byte changed, and with two faults."""
    files = []
    for rule in rules:
        tails = [bytes([10]), bytes([random.choice(EDGES)]), noise(random, 1), noise(random, 30)]
        files += [rule + tail for tail in tails]
        once = [changed(random, rule) for _ in range(5)]
        files += once + [changed(random, once[0]), changed(random, once[1])]
        files.append(once[2][: random.randrange(len(rule))])
        files.append(once[3] + noise(random, 30))
    return files


def noise_files(random):
    """Random bytes, random kinds, and random kinds after patterns."""
    files = []
    for _ in range(150):
        files.append(noise(random, 39))
        for head in (b"", ONE * 8, FULL):
            files.append(head + bytes(random.randrange(9) for _ in range(random.randrange(1, 40))))
            files.append(head + bytes(random.randrange(2, 8) for _ in range(random.randrange(1, 80))))
    return files


def long_files():
    """Files far longer than any rule, which their first bytes settle."""
    return [
        bytes(100000),
        ONE * 25000,
        MAX * 65536,
        LONGEST + TRUTH * (100000 - len(LONGEST)),
        LONGEST + bytes([8]) * 3000,
        LONGEST + ONE * 1000,
        FULL + after(31) * 63 + TRUTH * 4000,
        TRUTH * 20000,
        BOTH * 5000,
    ]


def files():
    """Every file, none of them twice."""
    random = Random(1)
    longest, drawn = longest_rules(random), random_rules(random)
    rules = longest + drawn
    every = [file for file, line in known.answers()]
    every += tiny_files() + pattern_files() + limit_files() + pair_files()
    every += max_files() + both_files() + both_in_both_files() + chain_files()
    every += rules + bad_rules(random) + pool_files() + spoiled_files(random, rules)
    for rule in longest + drawn[::31]:
        every += beginnings(rule)
    every += noise_files(random) + long_files()
    return list(dict.fromkeys(every))
