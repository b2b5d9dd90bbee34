"""Holds the two rules of each pair that differs only after empty patterns against each other."""
from functools import partial
from random import Random

import violation
from compare import expect
from empty_pairs import with_all_kinds
from equations import LARGEST_TABLE, PAGE, fill, said, text_of
from expected import fresh_table
from merging import fill_short
from rules import read_rule
from stream_plays import RATES
from stream_scans import steered

# So many streams at least would have other verdicts under the two if their empty patterns had all kinds.
LEAST = 100


def check_tables(pair):
    """Both have the same count, table and listing: the long ones, on the rule page, and the short ones."""
    for fill_table in (fill, partial(fill, terms=PAGE), fill_short):
        tables = [fresh_table(LARGEST_TABLE, 0) for _ in pair]
        counted = [fill_table(data, table) for data, table in zip(pair, tables)]
        expect(said(counted[0]) == said(counted[1]), "counts of a pair", *map(list, pair))
        expect(tables[0] == tables[1], "tables of a pair", *map(list, pair))
        expect(text_of(pair[0], counted[0]) == text_of(pair[1], counted[1]), "listings of a pair", *map(list, pair))


def verdicts_of(pair, scans):
    return [violation.verdicts(read_rule(data), list(scans)) for data in pair]


def check_stream(pair, scans):
    """Both give the same verdicts. Says whether they wouldn't, if their empty patterns had all kinds."""
    one, other = verdicts_of(pair, scans)
    expect(one == other, "verdicts of a pair", *map(list, pair), list(scans), one, other)
    one, other = verdicts_of(map(with_all_kinds, pair), scans)
    return one != other


def check(pairs):
    """Checks each pair, on streams that are made for one of the two and for the other. Says how many streams could tell them apart."""
    random, telling = Random("streams for pairs"), 0
    for number, pair in enumerate(pairs):
        check_tables(pair)
        for data in pair:
            telling += check_stream(pair, steered(random, read_rule(data), 24, RATES[number % len(RATES)]))
    expect(telling >= LEAST, "telling streams", telling)
    return telling
