"""The shortest table of a rule: rows that no list of codes tells apart are merged. Those that one tells apart are marked, pair by pair."""
from collections import defaultdict
from functools import cache, reduce
from operator import or_

from equations import DROPPED, fill_with, rows
from rules import Refusal


def bits(number):
    """The places of the ones of a number."""
    while number:
        lowest = number & -number
        yield lowest.bit_length() - 1
        number -= lowest


def rows_before(column):
    """The rows that a code leads to each answer, as the ones of a number."""
    before = defaultdict(int)
    for k, answer in enumerate(column):
        before[answer] |= 1 << k
    return before


def told_apart(table):
    """For each row the rows that some list of codes tells apart from it, as the ones of a number. First come those of which only
    one drops some code, and then those that a code leads to rows which are told apart, until none is new."""
    columns = [rows_before(column) for column in set(zip(*table))]
    apart, new = [0] * len(table), [0] * len(table)

    def note(some, others):
        for k in bits(some):
            new[k] |= others & ~apart[k]
            apart[k] |= others

    for before in columns:
        kept = sum(rows for answer, rows in before.items() if answer is not DROPPED)
        note(before[DROPPED], kept)
        note(kept, before[DROPPED])
    while any(new):
        for k in range(len(table)):
            others, new[k] = list(bits(new[k])), 0
            for before in columns:
                if before[k]:
                    note(before[k], reduce(or_, [before[l] for l in others], 0))
    return apart


def numbers_from(table, firsts):
    """The numbers of classes, each by its first row, in the order in which a search from row 0 finds them."""
    numbers = {0: 0}
    found = [0]
    for k in found:
        for answer in table[k]:
            if answer is not DROPPED and firsts[answer] not in numbers:
                numbers[firsts[answer]] = len(found)
                found.append(firsts[answer])
    return numbers


def merged(table):
    """The rows with one for each class."""
    apart = told_apart(table)
    firsts = [next(l for l in range(k + 1) if not apart[k] >> l & 1) for k in range(len(table))]
    numbers = numbers_from(table, firsts)
    answers = {k: numbers[first] for k, first in enumerate(firsts)} | {DROPPED: DROPPED}
    return [tuple(answers[answer] for answer in table[first]) for first in numbers]


@cache
def short_rows(data):
    """The rows of the shortest table of the rule that a file holds, or the refusal of the file."""
    table = rows(data)
    return table if isinstance(table, Refusal) else merged(table)


def fill_short(data, table):
    """As `fill`, with the rows of the shortest table."""
    return fill_with(short_rows(data), table)
