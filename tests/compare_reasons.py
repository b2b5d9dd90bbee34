"""Holds the reasons by violation against those by the equations, and both against what was typed."""
from collections import Counter
from random import Random

import known_reasons
from compare import Disagreement, expect, lists_of_codes
from empty_pairs import with_all_kinds
from equations import rows
from reason_cases import is_node, without_last
from reasons import KEPT, by_equations, by_violation, equations_of, places_of, without_others
from rules import Refusal, read_rule
from violation import violates

# What cases are counted as. Of each sort there have to be so many.
REFUSALS = [f"refused {number}" for number in (*range(1, 10), 17)]
SORTS = ["kept", "node", "node 63", "of several nodes", "not the node met first", "after 200 kept scans or more"]
SORTS += ["decided by an empty pattern", "17 at the first", "17 between", "17 at the last"] + REFUSALS
LEAST = 50


def reason(data, kept, scan):
    """The answer, which both ways have to give."""
    answer = by_violation(data, kept, scan)
    expect(by_equations(data, kept, scan) == answer, "reason", list(data), list(kept), scan, answer)
    return answer


def check_typed():
    """What was typed is what both say."""
    for data, kept, scan, line in known_reasons.answers():
        expect(reason(data, kept, scan) == line, "typed reason", list(data), list(kept), scan, line)


def check_rule(random, data):
    """On lists of codes, each taken as kept scans and a last one, both give the same answer; there is an ff node at
    which a list violates the rule exactly where violation says that it does; and of each ff node, a list violates the
    rule there exactly when it violates the rule without the others. Says how many lists were tried."""
    rule, places = read_rule(data), places_of(data)
    alone = {node: without_others(rule, node) for node, (part, _) in enumerate(places.parts) if part.kind == 3}
    lists = [bytes(codes) for codes in lists_of_codes(random, equations_of(data))]
    for codes in lists:
        found = places.of(codes)
        expect(violates(rule, codes) == bool(found), "violates", list(codes))
        expect({node for node in alone if violates(alone[node], codes)} == set(found), "alone", list(codes))
        if codes:
            reason(data, codes[:-1], codes[-1])
    is_eight = str(rows(data)) == str(Refusal(8, 0))
    expect(is_eight == bool(places.of(b"")), "the empty list")
    return len(lists)


def check(files):
    """Checks what was typed, and lists of codes for each of the files that holds a rule. Says how many there were."""
    check_typed()
    random = Random("lists for reasons")
    rules = [data for data in files if not isinstance(read_rule(data), Refusal)]
    lists = 0
    for data in rules:
        try:
            lists += check_rule(random, data)
        except Disagreement as disagreement:
            raise Disagreement(list(data)) from disagreement
    return len(rules), lists


def check_neighbours(answers):
    """With each case whose answer is a node there is one without the last of its kept scans, or with another scan."""
    scans = Counter((data, kept) for data, kept, _ in answers)
    for case, answer in answers.items():
        has_shorter = case[1] and without_last(case) in answers
        expect(not is_node(answer) or has_shorter or scans[case[:2]] > 1, "no neighbour", *map(list, case[:2]))


def traits(case, answer):
    """The sorts of a case."""
    data, kept, scan = case
    yield "node" if is_node(answer) else answer.split(" at ")[0]
    if len(kept) >= 200:
        yield "after 200 kept scans or more"
    if answer.startswith("refused 17"):
        place = int(answer.split()[-1])
        yield "17 at the first" if place == 0 else "17 at the last" if place == len(kept) - 1 else "17 between"
    if is_node(answer):
        nodes = places_of(data).of(kept + bytes([scan]))
        yield from ["of several nodes"] * (len(nodes) > 1)
        yield from ["not the node met first"] * (nodes[0] > min(nodes))
        yield from [answer] * (answer == "node 63")
    if is_node(answer) or answer == KEPT:
        yield from ["decided by an empty pattern"] * (by_violation(with_all_kinds(data), kept, scan) != answer)


def tally(answers):
    """How many cases there are of each sort. None is rare."""
    counted = Counter(trait for case, answer in answers.items() for trait in traits(case, answer))
    expect(all(counted[sort] >= LEAST for sort in SORTS), counted)
    return counted
