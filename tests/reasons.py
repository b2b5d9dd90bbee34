"""Why a scan is dropped after the scans that were kept: the lowest ff node at which they and then the scan violate a
rule. It is found twice, by the paper's "Meaning" without equations, and by what the equations open."""
from functools import cache
from itertools import count

from equations import DROPPED, Equations, rows
from rules import After, Both, Max, Refusal, Rule, Truth, read_rule

KEPT = "kept"


def in_reading_order(part, maxes=()):
    """The parts of a formula, the whole first, each with the maxes around it, innermost first."""
    yield part, maxes
    if part.kind == 4:
        yield from in_reading_order(part.left, maxes)
        yield from in_reading_order(part.right, maxes)
    elif part.kind == 5:
        yield from in_reading_order(part.body, maxes)
    elif part.kind == 6:
        yield from in_reading_order(part.body, (part,) + maxes)


class Places:
    """The ff nodes at which lists of codes violate a rule, in the order in which they are met. A list is taken from
    its end on: the nodes of every part follow from the first code and from the nodes of every part for the rest."""

    def __init__(self, rule):
        self.covered = [pattern.codes() for pattern in rule.patterns]
        self.parts = list(in_reading_order(rule.formula))
        self.number = {part: number for number, (part, _) in enumerate(self.parts)}
        self.with_code = cache(self.with_code)

    def with_code(self, code, rest):
        """The nodes of every part for a code and then a rest, given those for the rest. For the empty list
        the code is None, which no pattern covers."""

        @cache
        def nodes(part, maxes):
            if part.kind == 3:
                return (self.number[part],)
            if part.kind == 4:
                return tuple(dict.fromkeys(nodes(part.left, maxes) + nodes(part.right, maxes)))
            if part.kind == 5:
                return rest[self.number[part.body]] if code in self.covered[part.pattern] else ()
            if part.kind == 6:
                return nodes(part.body, (part,) + maxes)
            if part.kind == 7:
                return nodes(maxes[part.depth].body, maxes[part.depth :])
            return ()

        return tuple(nodes(part, maxes) for part, maxes in self.parts)

    def of(self, codes):
        """The ff nodes at which a list violates the rule. There are none where it doesn't."""
        found = self.with_code(None, ())
        for code in reversed(codes):
            found = self.with_code(code, found)
        return found[0]

    def shortest(self, codes):
        """How long the shortest front of a violating list is that violates the rule."""
        return next(length for length in range(len(codes) + 1) if self.of(codes[:length]))


def without_others(rule, number):
    """The rule in which each ff but the node of that number is tt. Nodes are counted in reading order."""
    numbers = count()

    def kept(part):
        own = next(numbers)
        if part.kind == 3:
            return part if own == number else Truth()
        if part.kind == 4:
            return Both(kept(part.left), kept(part.right))
        if part.kind == 5:
            return After(part.pattern, kept(part.body))
        return Max(kept(part.body)) if part.kind == 6 else part

    return Rule(rule.patterns, kept(rule.formula))


@cache
def places_of(data):
    return Places(read_rule(data))


@cache
def equations_of(data):
    return Equations(read_rule(data))


def said(nodes):
    """The line of a scan that violates the rule at some ff nodes, or at none."""
    return f"node {min(nodes)}" if nodes else KEPT


def by_violation(data, kept, scan):
    """The line that answers why a scan is dropped: 1 to 9 as counting has them, then 17, then the reason."""
    if isinstance(rows(data), Refusal):
        return str(rows(data))
    places = places_of(data)
    if places.of(kept):
        return str(Refusal(17, places.shortest(kept) - 1))
    return said(places.of(kept + bytes([scan])))


def by_equations(data, kept, scan):
    """The same line, by the equation to which the kept scans lead and what the scan opens there."""
    if isinstance(rows(data), Refusal):
        return str(rows(data))
    equations = equations_of(data)
    equation = equations.first
    for place, code in enumerate(kept):
        equation = equations.answers(equation)[code]
        if equation is DROPPED:
            return str(Refusal(17, place))
    opened = equations.opened_under(equation, equations.covering[scan])
    return said([node for node in opened if equations.nodes[node][0] == 3])
