"""Holds violation and the equations against each other: on rules, on lists of codes, and on what was typed."""
import sys
from itertools import product
from random import Random

import known_equations
import violation
from equations import CODES, DESK, DROPPED, Equations, fill, listing, rows, said
from expected import fresh_table
from merging import short_rows
from rules import After, Refusal, numbered, read_rule

# Violation goes down a formula once for each code of a list.
sys.setrecursionlimit(10000)


class Disagreement(Exception):
    """Says where two answers that should be one differ."""


def expect(is_right, *where):
    if not is_right:
        raise Disagreement(*where)


def used_patterns(rule):
    """The patterns of the rule's necessities."""
    used = {argument for kind, argument in numbered(rule.formula) if kind == After.kind}
    return [rule.patterns[number] for number in used]


def check_patterns(files):
    """Of the rules that are read, at least one in four has a necessity whose pattern goes round and isn't empty, and at least one in
    eight has one whose pattern is empty."""
    used = [used_patterns(rule) for rule in map(read_rule, files) if not isinstance(rule, Refusal)]
    going_round = sum(any(p.goes_round() and not p.is_empty() for p in patterns) for patterns in used)
    expect(4 * going_round >= len(used), "patterns that go round", going_round, len(used))
    empty = sum(any(p.is_empty() for p in patterns) for patterns in used)
    expect(8 * empty >= len(used), "empty patterns", empty, len(used))


def ends_of_classes(equations):
    """The lowest and the highest code of each class: of all codes that the same patterns cover."""
    classes = {}
    for code, patterns in enumerate(equations.covering):
        classes.setdefault(patterns, []).append(code)
    return [(codes[0], codes[-1]) for codes in classes.values()]


def lists_of_codes(random, equations):
    """Every short list over a few codes, each of a class of its own, and longer lists over both ends of some
    classes and any one code."""
    classes = ends_of_classes(equations)
    few = [random.choice(ends) for ends in random.sample(classes, min(len(classes), 4))]
    lists = [list(codes) for length in range(4) for codes in product(few, repeat=length)]
    for _ in range(12):
        some = [code for ends in random.sample(classes, min(len(classes), 3)) for code in ends]
        some.append(random.randrange(256))
        lists.append([random.choice(some) for _ in range(random.randrange(4, 13))])
    return lists


def verdicts_by_table(table, scans, state=0):
    """Of each scan, whether it is dropped, by the rows of a table from one of them on."""
    dropped = []
    for scan in scans:
        answer = table[state][scan]
        dropped.append(answer is DROPPED)
        if answer is not DROPPED:
            state = answer
    return dropped


def check_rows(table):
    """Each number but 0 first appears, row by row, after the numbers below it, and all numbers appear."""
    answers = [answer for row in table for answer in row if answer is not DROPPED]
    expect(list(dict.fromkeys([0] + answers)) == list(range(len(table))), "order")


def check_rule(random, rule, long, short):
    """A list violates a rule exactly when running its equations drops a scan of it, by the sets, by their table or by the
    short one; and a scan is dropped exactly when the kept ones and then the scan violate the rule. Says how many lists
    were tried."""
    equations = Equations(rule)
    tables = [] if isinstance(long, Refusal) else [long, short]
    for table in tables:
        check_rows(table)
    lists = lists_of_codes(random, equations)
    if equations.has_falsity(equations.first):
        expect(all(violation.violates(rule, codes) for codes in lists), "ff")
        return len(lists)
    for codes in lists:
        dropped = equations.verdicts(codes)
        expect(violation.violates(rule, codes) == any(dropped), "violates", codes)
        expect(all(verdicts_by_table(table, codes) == dropped for table in tables), "table", codes)
    for scans in lists[::7]:
        expect(violation.verdicts(rule, scans) == equations.verdicts(scans), "verdicts", scans)
    return len(lists)


def check_filling(fill_table, data, size, answer):
    """A filling answers as typed. It leaves the entries behind the last row, and all where it is refused."""
    table = fresh_table(size, 0)
    counted = fill_table(data, table)
    expect(said(counted) == answer, "filling", list(data), size, said(counted))
    written = 0 if isinstance(counted, Refusal) else CODES * len(counted)
    expect(table[written:] == fresh_table(size, 0)[written:], "entries that stay", list(data), size)


def check_typed():
    """What was typed is what the equations or violation say, and the verdicts are those of both."""
    for data, typed in known_equations.listings():
        expect(listing(data) == typed, "listing", listing(data))
    for data, typed in known_equations.sets():
        found = list(Equations(read_rule(data)).numbers(DESK.most))
        expect(found == typed, "equations", list(data), found)
    for data, size, answer in known_equations.fillings():
        check_filling(fill, data, size, answer)
    for data, scans, dropped in known_equations.verdicts():
        rule = read_rule(data)
        expect(Equations(rule).verdicts(scans) == dropped, "typed verdicts", list(scans))
        expect(violation.verdicts(rule, list(scans)) == dropped, "typed verdicts, by violation", list(scans))
    for data, codes, is_violating in known_equations.violations():
        expect(violation.violates(read_rule(data), codes) == is_violating, "typed violation", list(data), list(codes))


def check(files):
    """Checks what was typed, and each of the files that holds a rule. Says how many rules and lists there were."""
    check_typed()
    check_patterns(files)
    random = Random(3)
    rules = lists = 0
    for data in files:
        rule = read_rule(data)
        if isinstance(rule, Refusal):
            continue
        try:
            lists += check_rule(random, rule, rows(data), short_rows(data))
        except Disagreement as disagreement:
            raise Disagreement(list(data)) from disagreement
        rules += 1
    return rules, lists
