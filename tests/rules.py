"""A rule file, read from the paper's words alone: its patterns and its formula, or a refusal."""
from dataclasses import dataclass
from functools import cache

SLOTS = 32
MOST_PATTERNS = 32
MOST_NODES = 64

# The length of the body that follows each kind.
BODIES = {1: 3, 2: 0, 3: 0, 4: 0, 5: 1, 6: 0, 7: 1}


class Refusal(Exception):
    """Says that a file is refused, by a number of the paper's table, and at which place."""

    def __init__(self, number, place):
        super().__init__(number, place)
        self.number = number
        self.place = place

    def __str__(self):
        return f"refused {self.number} at {self.place}"


@dataclass(frozen=True)
class Pattern:
    mask: int
    first: int
    last: int

    def slots(self):
        """The slots from first on until last, in a ring: 0 comes after the highest."""
        slot = self.first
        slots = {slot}
        while slot != self.last:
            slot = (slot + 1) % SLOTS
            slots.add(slot)
        return slots

    @cache
    def codes(self):
        """The codes of every kind in the mask with every slot."""
        kinds = [kind for kind in range(8) if self.mask & 2**kind]
        return frozenset(SLOTS * kind + slot for kind in kinds for slot in self.slots())

    def goes_round(self):
        return self.first > self.last

    def is_empty(self):
        return not self.codes()

    def lowest(self):
        """The lowest code, or None where there is no code."""
        return min(self.codes(), default=None)

    def count(self):
        return len(self.codes())

    def extent(self):
        """The lowest code and the count, as they are printed."""
        return f"{'none' if self.lowest() is None else self.lowest()} {self.count()}"


# The formulas. Each class has the kind of its node. Equal parts at two places are two nodes: they are told apart.


@dataclass(frozen=True, eq=False)
class Truth:
    kind = 2


@dataclass(frozen=True, eq=False)
class Falsity:
    kind = 3


@dataclass(frozen=True, eq=False)
class Both:
    left: object
    right: object
    kind = 4


@dataclass(frozen=True, eq=False)
class After:
    """The necessity: after each code of the pattern of that number, the body."""

    pattern: int
    body: object
    kind = 5


@dataclass(frozen=True, eq=False)
class Max:
    body: object
    kind = 6


@dataclass(frozen=True, eq=False)
class Variable:
    """The variable of an enclosing max, depth 0 being the innermost."""

    depth: int
    kind = 7


@dataclass(frozen=True)
class Rule:
    patterns: list
    formula: object


@dataclass(frozen=True)
class Record:
    place: int
    kind: int
    body: bytes


class Reader:
    """Goes over a rule file from left to right, and stops at the first refusal."""

    def __init__(self, data):
        self.data = data
        self.at = 0
        self.patterns = []
        self.nodes = 0

    def rule(self):
        record = self.next_record()
        while record.kind == 1:
            self.patterns.append(self.pattern(record))
            record = self.next_record()
        formula = self.formula(record, [])
        if self.at < len(self.data):
            raise Refusal(3, self.at)
        return Rule(self.patterns, formula)

    def next_record(self):
        """Takes the record that is due, with the checks that the paper makes before it looks at a body."""
        place = self.at
        if place == len(self.data):
            raise Refusal(1, len(self.data))
        kind = self.data[place]
        if kind not in BODIES:
            raise Refusal(2, place)
        if kind == 1 and self.nodes > 0:
            raise Refusal(3, place)
        if kind == 1 and len(self.patterns) == MOST_PATTERNS:
            raise Refusal(4, place)
        if kind != 1 and self.nodes == MOST_NODES:
            raise Refusal(4, place)
        self.at = place + 1 + BODIES[kind]
        if self.at > len(self.data):
            raise Refusal(1, len(self.data))
        return Record(place, kind, self.data[place + 1 : self.at])

    def pattern(self, record):
        mask, first, last = record.body
        if first >= SLOTS or last >= SLOTS:
            raise Refusal(5, record.place)
        return Pattern(mask, first, last)

    def formula(self, record, scope):
        """The formula that begins with a record. The scope says of each enclosing max, innermost first,
        whether a kind 5 node stands below it."""
        self.nodes += 1
        if record.kind == 2:
            return Truth()
        if record.kind == 3:
            return Falsity()
        if record.kind == 4:
            left = self.formula(self.next_record(), scope)
            right = self.formula(self.next_record(), scope)
            return Both(left, right)
        if record.kind == 5:
            return self.necessity(record, scope)
        if record.kind == 6:
            return Max(self.formula(self.next_record(), [False] + scope))
        return self.variable(record, scope)

    def necessity(self, record, scope):
        number = record.body[0]
        if number >= len(self.patterns):
            raise Refusal(6, record.place)
        return After(number, self.formula(self.next_record(), [True for _ in scope]))

    def variable(self, record, scope):
        depth = record.body[0]
        if depth >= len(scope):
            raise Refusal(6, record.place)
        if not scope[depth]:
            raise Refusal(7, record.place)
        return Variable(depth)


def read_rule(data):
    """The rule that a file holds, or the refusal of the file."""
    try:
        return Reader(data).rule()
    except Refusal as refusal:
        return refusal


def numbered(formula):
    """The kind and the argument of each node in reading order. The argument is the node of the second part
    of a "both", the pattern of a necessity, the node of a variable's max, and else 0."""
    nodes = []

    def number(part, maxes):
        here = len(nodes)
        nodes.append((part.kind, 0))
        if part.kind == 4:
            number(part.left, maxes)
            nodes[here] = (4, len(nodes))
            number(part.right, maxes)
        elif part.kind == 5:
            nodes[here] = (5, part.pattern)
            number(part.body, maxes)
        elif part.kind == 6:
            number(part.body, [here] + maxes)
        elif part.kind == 7:
            nodes[here] = (7, maxes[part.depth])

    number(formula, [])
    return nodes
