"""Holds the short tables against the long ones and against what was typed."""
from collections import Counter

import known_short
from compare import check_filling, expect, verdicts_by_table
from equations import DROPPED, rows, text_of
from merging import fill_short, short_rows
from rules import Refusal

# There are at least so many rules of each sort.
LEAST = 40
SORTS = ["none merged", "all merged", "some merged", "over 40 equations left"]


def codes_of(table):
    """One code for each column that differs from the others."""
    return list({column: code for code, column in enumerate(zip(*table))}.values())


def leader(leaders, k):
    """The row that stands for row k and all that have been put together with it."""
    while leaders[k] != k:
        leaders[k] = k = leaders[leaders[k]]
    return k


def telling_list(table, codes, alike, k, l):
    """A list of codes on which rows k and l give different verdicts, or None: both are run side by side. Rows that were run beside
    each other are put together, and needn't be run so again. Those that are known to be alike are together before, and where no
    list is found, all that were put together are known to be."""
    leaders = list(alike)
    queue = [(k, l, [])]
    for k, l, before in queue:
        leaders[leader(leaders, k)] = leader(leaders, l)
        for code in codes:
            x, y = table[k][code], table[l][code]
            if (x is DROPPED) != (y is DROPPED):
                return before + [code]
            if x is not DROPPED and leader(leaders, x) != leader(leaders, y):
                leaders[leader(leaders, x)] = leader(leaders, y)
                queue.append((x, y, before + [code]))
    alike[:] = leaders
    return None


class Sieve:
    """A class of rows, by its first row; or a list of codes that tells classes apart, with a sieve for each way in which rows answer it."""

    def __init__(self, first):
        self.first = first
        self.telling = None
        self.parts = {}

    def add(self, table, codes, alike, k):
        """Gives the first row of the class of row k, which is k itself in a new class. It is run beside the first row of a class
        only where no list so far tells the two apart."""
        if self.telling is None:
            telling = telling_list(table, codes, alike, self.first, k)
            if telling is None:
                return self.first
            self.telling = telling
            self.parts = {answer_to(table, telling, row): Sieve(row) for row in (self.first, k)}
            expect(len(self.parts) == 2, "telling", self.first, k, telling)
        return self.parts.setdefault(answer_to(table, self.telling, k), Sieve(k)).add(table, codes, alike, k)


def answer_to(table, telling, k):
    return tuple(verdicts_by_table(table, telling, k))


def merged_by_firsts(table):
    """The short table by another way: each row is held against the first rows of classes so far, and the classes are
    numbered in the order of these."""
    codes, sieve, alike = codes_of(table), Sieve(0), list(range(len(table)))
    firsts = [sieve.add(table, codes, alike, k) for k in range(len(table))]
    numbers = {first: number for number, first in enumerate(dict.fromkeys(firsts))}
    answers = {k: numbers[first] for k, first in enumerate(firsts)} | {DROPPED: DROPPED}
    return [tuple(answers[answer] for answer in table[first]) for first in numbers]


def check_typed():
    """What was typed is what the short tables say."""
    for data, before, typed in known_short.listings():
        expect(len(rows(data)) == before, "equations before merging", list(data), len(rows(data)))
        expect(text_of(data, short_rows(data)) == typed, "short listing", text_of(data, short_rows(data)))
    for data, typed in known_short.staying():
        expect(text_of(data, short_rows(data)) == typed, "staying", text_of(data, short_rows(data)))
    for data, size, answer in known_short.fillings():
        check_filling(fill_short, data, size, answer)


def sorts_of(before, after):
    """The sorts of a rule with so many equations before and after merging."""
    yield "none merged" if after == before else "all merged" if after == 1 else "some merged"
    yield from ["over 40 equations left"] * (after > 40)


def check(files):
    """Checks what was typed, and the short table of each of the files. Says how many rules there are of each sort."""
    check_typed()
    tally = Counter()
    for data in files:
        table, short = rows(data), short_rows(data)
        if not isinstance(table, Refusal):
            expect(merged_by_firsts(table) == short, "short table", list(data))
            tally.update(sorts_of(len(table), len(short)))
    expect(all(tally[sort] >= LEAST for sort in SORTS), tally)
    return tally
