"""The rules, the kept scans and the scans of which it is asked why they are dropped. They are the same each time."""
from random import Random

import empty_pairs
import known_reasons
import stream_cases
from compare import expect
from equation_shapes import counters, drawn, limit_rules, tangled, wide_rules
from equations import CODES, is_dropping, rows
from known import POOL, bytes_of
from known_wide import later, registers
from reason_shapes import branches, filled_up, node_count, returning, with_faults
from reasons import KEPT, by_violation, places_of
from rules import read_rule
from shapes import FALSITY, TRUTH
from stream_plays import RATES
from stream_scans import steered

# The program takes no longer rule, and no more kept scans.
MOST_BYTES = 1024

# How many scans some streams have: most of the kept lists that they give have hundreds.
LONG = [250, 400, 600, 900]

# Rules of which kept lists can be long while scans are still dropped.
LASTING = [POOL, known_reasons.RETURNING, known_reasons.OUTER, known_reasons.ONCE, known_reasons.SECOND]
LASTING += [later(m) for m in (3, 7, 9)] + [registers(28)]


def is_node(answer):
    return answer.startswith("node")


def dropping(rules):
    """Those of the rules that are accepted and can drop a scan."""
    return [rule for rule in rules if is_dropping(rule)]


def points(random, data, length, rate):
    """A stream of so many scans, asked scan by scan: for each set of ff nodes that a scan meets, also for the empty
    one, the last case that meets it."""
    found, kept = {}, b""
    for scan in steered(random, read_rule(data), length, rate):
        nodes = places_of(data).of(kept + bytes([scan]))
        found[nodes] = (data, kept, scan)
        if not nodes:
            kept += bytes([scan])
    return list(found.values())


def shaped_rules(random):
    """Rules with several ff nodes, and rules whose last node is node 63 and ff."""
    rules = dropping(drawn(random, branches, 110) + drawn(random, returning, 150))
    ending = [rule for rule in rules if rule.endswith(FALSITY)]
    return rules + [filled_up(rule) for rule in ending[::2]]


def drawn_cases(random):
    """Short streams of rules of many shapes."""
    cases = []
    for number, data in enumerate(stream_cases.rule_files()[::2]):
        cases += points(random, data, random.randrange(4, 24), RATES[number % len(RATES)])
    for data in shaped_rules(random):
        cases += points(random, data, 24, 0.3) + points(random, data, random.randrange(4, 16), 0.7)
    return cases


def pair_cases(random):
    """Short streams of rules with empty patterns, and the same of the rules that differ from these after empty patterns
    alone: a scan is dropped under both or under none."""
    cases = []
    for one, other in empty_pairs.pairs()[1::3]:
        for data, kept, scan in points(random, one, 16, 0.5):
            two = [(data, kept, scan), (other, kept, scan)]
            expect(len({is_node(by_violation(*case)) for case in two}) == 1, "a pair", *map(list, two[0][:2]), list(other), scan)
            cases += two
    return cases


def long_cases(random):
    """Kept lists of hundreds of scans. Some are as long as the program takes, one with a rule file that is too."""
    cases = []
    for text in LASTING:
        for length in LONG:
            cases += points(random, bytes_of(text), length, 0.3)
    for data in dropping(drawn(random, counters, 12) + drawn(random, tangled, 12) + drawn(random, returning, 12)):
        cases += points(random, data, random.choice(LONG), 0.3)
    pool, kept = bytes_of(POOL), bytes([37, 128]) * (MOST_BYTES // 2 - 1)
    cases.append((pool.ljust(MOST_BYTES, TRUTH), kept + bytes([37, 5]), 5))
    return cases + [(pool, kept + bytes(last), 5) for last in ([37], [37, 128], [37, 37], [37, 5], [5, 37])]


def unfit(random, case, more):
    """A case whose kept scans violate the rule: those of a case, the scan that is dropped, and so many others."""
    data, kept, scan = case
    return data, kept + bytes([scan]) + random.randbytes(more), random.randrange(CODES)


def unfit_cases(random, dropped):
    """Lists that violate their rule with the last scan, with one in the middle, or with the first."""
    cases = [unfit(random, case, 0) for case in dropped[::9]]
    cases += [unfit(random, case, random.randrange(1, 9)) for case in dropped[1::9]]
    first = [case for case in dropped if case[1] == b""]
    cases += [unfit(random, case, random.choice([0, 1, 5, 50])) for case in first[::4]]
    some = [case for case in dropped if len(case[1]) > 100]
    return [case for case in cases + [unfit(random, case, 100) for case in some] if len(case[1]) <= MOST_BYTES]


def refused_cases(random, dropped):
    """Rules with a fault, for each of the refusals, and kept scans that violate the rule without it. A rule that
    drops nearly everything has few equations whatever stands beside it, and so not the last of the faults."""
    small = [case for case in dropped if len(read_rule(case[0]).patterns) <= 30 and node_count(case[0]) <= 47]
    cases = []
    for case in random.sample(small, 60):
        whole = unfit(random, case, random.choice([0, 0, 3]))
        cases.append(whole)
        for number, data in with_faults(case[0]).items():
            is_refused = str(rows(data)).startswith(f"refused {number} at")
            expect(is_refused or number == 9, "a fault", number, list(data))
            cases += [(data, *whole[1:])] if is_refused else []
    return cases


def limit_cases(random):
    """Rules with about as many equations as the programs take, and as there may be. Those with too many get lists that violate them too."""
    cases = []
    for data in limit_rules(random) + wide_rules(random)[::4]:
        scans = steered(random, read_rule(data), random.randrange(4, 24), 0.7)
        cases += points(random, data, len(scans), 0.5) + [(data, scans, scans[0])]
    return cases


def without_last(case):
    data, kept, scan = case
    return data, kept[:-1], scan


def with_other_scan(random, case):
    """The case with a scan that is kept, or, where none is, with any other scan."""
    data, kept, scan = case
    others = random.sample([code for code in range(CODES) if code != scan], CODES - 1)
    return data, kept, next((code for code in others if by_violation(data, kept, code) == KEPT), others[0])


def with_neighbours(random, cases):
    """The cases, none of them twice, and with each whose answer is a node one without the last of its kept scans, or
    with another scan."""
    every = dict.fromkeys(cases)
    queue = list(every)
    for case in queue:
        if is_node(by_violation(*case)):
            is_shorter = case[1] and random.randrange(2) > 0
            other = without_last(case) if is_shorter else with_other_scan(random, case)
            if other not in every:
                every[other] = None
                queue.append(other)
    return list(every)


def cases():
    """Every case."""
    random = Random("reasons")
    every = [(data, kept, scan) for data, kept, scan, _ in known_reasons.answers()]
    every += drawn_cases(random) + pair_cases(random) + long_cases(random) + limit_cases(random)
    dropped = [case for case in every if is_node(by_violation(*case))]
    every += unfit_cases(random, dropped) + refused_cases(random, dropped)
    return with_neighbours(random, every)
