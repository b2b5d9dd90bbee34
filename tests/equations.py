"""The equations of a rule, their table and their listing, by the paper's "Equations"."""
from array import array
from functools import cache
from itertools import chain, groupby
from typing import NamedTuple

from rules import Refusal, numbered, read_rule

CODES = 256

# What an equation answers to a code that it drops, in place of the next equation.
DROPPED = None


class Terms(NamedTuple):
    """The most equations that a rule may have, the number of its refusal where it has more, and the mark: the entry that
    a table has where an equation drops a code."""

    most: int
    number: int
    mark: int


# The terms of the desk, of the programs and of the rule page.
DESK = Terms(1000, 9, 65535)
PROGRAMS = DESK._replace(most=128)
PAGE = DESK._replace(most=32, number=18)

# A table of so many entries has room for the rows of every rule, and one of so many for those that the programs take.
LARGEST_TABLE = CODES * DESK.most
PROGRAM_TABLE = CODES * PROGRAMS.most


def within(limit):
    """The terms of the desk with another limit. One over its own counts as that."""
    return DESK._replace(most=min(limit, DESK.most))


class Equations:
    """The equations of a rule. Each is a frozen set of numbers of necessities."""

    def __init__(self, rule):
        self.nodes = numbered(rule.formula)
        covered = [pattern.codes() for pattern in rule.patterns]
        self.covering = [frozenset(p for p, codes in enumerate(covered) if c in codes) for c in range(CODES)]
        # Each node is opened once, and each equation answers once.
        self.opened = cache(self.opened)
        self.answers = cache(self.answers)
        self.first = self.opened(0)

    def opened(self, node):
        """The ff nodes and the necessities that opening a node gives."""
        kind, argument = self.nodes[node]
        if kind == 2:
            return frozenset()
        if kind == 4:
            return self.opened(node + 1) | self.opened(argument)
        if kind == 6:
            return self.opened(node + 1)
        if kind == 7:
            return self.opened(argument + 1)
        return frozenset([node])

    def has_falsity(self, opened):
        return any(self.nodes[node][0] == 3 for node in opened)

    def opened_under(self, equation, patterns):
        """The ff nodes and the necessities that a code opens which these patterns cover."""
        taken = [node for node in equation if self.nodes[node][1] in patterns]
        return frozenset().union(*[self.opened(node + 1) for node in taken])

    def answer(self, equation, patterns):
        """The answer to a code that these patterns cover."""
        opened = self.opened_under(equation, patterns)
        return DROPPED if self.has_falsity(opened) else opened

    def answers(self, equation):
        """The answers to the codes from 0 up. One is worked out for all codes with the same covering patterns."""
        known = {patterns: self.answer(equation, patterns) for patterns in set(self.covering)}
        return [known[patterns] for patterns in self.covering]

    def numbers(self, most):
        """The equations with their numbers. Each equation in turn is asked all codes from 0 up, and a new one gets the
        next number. The search ends once there are over `most`."""
        numbers = {self.first: 0}
        found = [self.first]
        for equation in found:
            for answer in self.answers(equation):
                if answer is not DROPPED and answer not in numbers:
                    numbers[answer] = len(found)
                    found.append(answer)
            if len(found) > most:
                break
        return numbers

    def row(self, equation, numbers):
        """The numbers of an equation's answers, by the numbers of all. What is dropped has none."""
        return tuple(map(numbers.get, self.answers(equation)))

    def verdicts(self, scans):
        """Of each scan, whether it is dropped, from the first equation on."""
        equation, dropped = self.first, []
        for scan in scans:
            answer = self.answers(equation)[scan]
            dropped.append(answer is DROPPED)
            if answer is not DROPPED:
                equation = answer
        return dropped


@cache
def searched(most, data):
    """The rows of the equations, in order, of the rule that a file holds; None where there are over the most; or the refusal of
    the file."""
    rule = read_rule(data)
    if isinstance(rule, Refusal):
        return rule
    equations = Equations(rule)
    if equations.has_falsity(equations.first):
        return Refusal(8, 0)
    numbers = equations.numbers(most)
    return [equations.row(equation, numbers) for equation in numbers] if len(numbers) <= most else None


def rows(data, terms=DESK):
    """The rows of a rule on these terms, or the refusal of its file. Each file is searched once for all terms."""
    found = searched(max(terms.most, DESK.most + 1), data)
    if isinstance(found, Refusal):
        return found
    return Refusal(terms.number, 0) if found is None or len(found) > terms.most else found


def is_accepted(data, terms=DESK):
    return not isinstance(rows(data, terms), Refusal)


def can_drop(table):
    """Whether a code is dropped somewhere in the rows."""
    return any(DROPPED in answers for answers in table)


def is_dropping(data, terms=PROGRAMS):
    """Whether the rule of a file is accepted and can drop a scan."""
    return is_accepted(data, terms) and can_drop(rows(data, terms))


def entries_of(counted, mark=DESK.mark):
    """The rows one after the other, as a table has them."""
    return array("H", [mark if answer is DROPPED else answer for answer in chain(*counted)])


def fill_with(counted, table, mark=DESK.mark):
    """The rows that were counted, or the refusal of filling. The lent table gets them in place."""
    if isinstance(counted, Refusal):
        return counted
    if len(table) < CODES * len(counted):
        return Refusal(10, 0)
    table[: CODES * len(counted)] = entries_of(counted, mark)
    return counted


def fill(data, table, terms=DESK):
    return fill_with(rows(data, terms), table, terms.mark)


def said(counted):
    """The line that says how many rows there are, or the refusal."""
    return str(counted) if isinstance(counted, Refusal) else f"equations {len(counted)}"


def row(table, number):
    """The row of the equation of that number in a table, empty where it isn't wholly inside."""
    part = table[CODES * number : CODES * number + CODES]
    return part if len(part) == CODES else part[:0]


def row_lines(number, answers):
    """A line for each longest run of codes with one answer."""
    first = 0
    for answer, run in groupby(answers):
        last = first + len(list(run)) - 1
        yield f"{number} {first} {last} " + ("drop" if answer is DROPPED else str(answer))
        first = last + 1


def text_of(data, counted):
    """What is printed of a rule file, given its rows or a refusal: the listing, or the line of the refusal alone."""
    if isinstance(counted, Refusal):
        return said(counted) + "\n"
    patterns = read_rule(data).patterns
    lines = [f"patterns {len(patterns)}"]
    lines += [f"p {number} {pattern.extent()}" for number, pattern in enumerate(patterns)]
    lines.append(said(counted))
    for number, answers in enumerate(counted):
        lines += row_lines(number, answers)
    return "".join(line + "\n" for line in lines)


def listing(data, terms=DESK):
    """The listing of a rule file. The program `equations` prints it on its own terms."""
    return text_of(data, rows(data, terms))
