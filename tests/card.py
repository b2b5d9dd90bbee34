"""The card of slot sets, by sets of numbers: the slots under a width, and the slots that a first and a last one name."""
from rules import SLOTS

ALL = frozenset(range(SLOTS))


def under(width):
    return ALL & set(range(min(width, SLOTS)))


def named(first, last):
    """From first to last; where first is over last, all but those that lie between last and first."""
    if first <= last:
        return ALL & set(range(first, last + 1))
    return ALL - set(range(last + 1, first))


def word(slots):
    """Bit s is set for slot s."""
    return sum(1 << slot for slot in slots)
