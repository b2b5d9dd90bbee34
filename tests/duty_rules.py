"""The rules that come on duty, and groups of them whose joined rule is accepted, or is refused. They are the same each time."""
from functools import cache
from random import Random

import known_empty
import known_equations
import known_runs
from compare import expect
from equation_shapes import counters, drawn, tangled
from equations import PROGRAMS, is_dropping, rows
from joining import joined
from known import ANY, ONE, POOL, SIX, bytes_of, counted
from merging_shapes import dropping, equal_parts, late_drops, near_parts
from reason_shapes import branches, returning
from rules import Refusal
from shapes import random_rule

# Rules with names in other files; "after any code, ff", which drops every scan; and "never 6".
TYPED = [POOL, known_runs.SECOND, known_equations.BRANCHES, known_equations.PLACES, known_equations.REQUESTS, known_equations.ROUND]
TYPED += [known_equations.ROUND_TWICE, known_empty.ROUND_AGAIN, known_empty.NEVER_LATER, ANY + "5 0 3", ANY + SIX + "6 4 5 1 3 5 0 7 0"]
TYPED += ["2", ONE + "5 0 3", ANY + "5 0 5 0 3"]

MAKES = [branches, counters, equal_parts, late_drops, near_parts, returning, tangled]
OF_A_KIND = 24

# Rules with at most so many equations are small: the tables of many fit side by side.
SMALL = 24

# A joined rule of so many equations has room beside the rules that it joins.
MOST_JOINED = 700

# So many draws are enough for a group.
DRAWS = 20000


@cache
def pool():
    """Rules that are accepted. All but a few can drop a scan."""
    random = Random("rules on duty")
    files = [bytes_of(text) for text in TYPED]
    for make in MAKES:
        files += dropping(random, make, OF_A_KIND)
    return list(dict.fromkeys(files))


def small():
    return [data for data in pool() if len(rows(data)) <= SMALL]


def large():
    """Rules with more equations, up to 128."""
    return [data for data in pool() if len(rows(data)) > SMALL] + [bytes_of(counted(m, "3")) for m in (5, 6, 7)]


@cache
def wide():
    """Rules of many patterns or many nodes, few of which can be joined."""
    random = Random("wide rules on duty")
    makes = [lambda random: random_rule(random, 20, 12), lambda random: random_rule(random, 3, 50)]
    return [data for make in makes for data in drawn(random, make, 300) if is_dropping(data) and len(rows(data)) <= SMALL]


def drawn_group(random, files, size, is_wanted):
    """So many of the files, whose joined rule's answer is wanted."""
    for _ in range(DRAWS):
        group = [random.choice(files) for _ in range(size)]
        if is_wanted(rows(joined(group))):
            return group
    raise SystemExit(f"no group in {DRAWS} draws")


def accepted_groups(random, size, count):
    """Groups whose joined rule has up to 128 equations."""
    def is_wanted(table):
        return not isinstance(table, Refusal) and len(table) <= PROGRAMS.most

    return [drawn_group(random, small(), size, is_wanted) for _ in range(count)]


def wide_groups(random, files, size, count):
    """Groups whose joined rule has more, and leaves room for their own tables."""
    def is_wanted(table):
        return not isinstance(table, Refusal) and PROGRAMS.most < len(table) <= MOST_JOINED

    return [drawn_group(random, files, size, is_wanted) for _ in range(count)]


def refused_groups(random, number, files, size, count):
    """Groups whose joined rule gets a refusal, though none of its rules does."""
    def is_wanted(table):
        return isinstance(table, Refusal) and table.number == number

    groups = [drawn_group(random, files, size, is_wanted) for _ in range(count)]
    for group in groups:
        expect(not any(isinstance(rows(data), Refusal) for data in group), "a rule that is refused alone")
    return groups
