"""Rules that come on and go off duty, by C-18. What is dropped goes by violation: no table is used for it."""
from dataclasses import dataclass, replace

from compare import expect
from equations import CODES, DESK, DROPPED, entries_of, rows
from merging import short_rows
from rules import Refusal, read_rule
from running import is_short, is_unfit
from violation import violates

# So many rules can be on duty.
MOST_ON_DUTY = 4


class Spell:
    """A spell of a rule on duty: the rule, and the scans that were kept since it came on."""

    def __init__(self, data, is_short_table=False, kept=()):
        self.rule = read_rule(data)
        self.is_short_table = is_short_table
        self.rows = short_rows(data) if is_short_table else rows(data)
        self.kept = list(kept)

    def lend(self, table):
        """The table that a run lends has to be the rule's own."""
        own = entries_of(self.rows)
        expect(table[: len(own)] == own, "the rule's own table")

    def drops(self, scan):
        """A scan is dropped where the kept ones and then the scan violate the rule."""
        return violates(self.rule, self.kept + [scan])

    def keep(self, scan):
        self.kept.append(scan)

    def equation(self):
        """To which equation the kept scans lead: only the state shows it."""
        equation = 0
        for scan in self.kept:
            equation = self.rows[equation][scan]
        return equation

    def would_move(self, scan):
        return self.rows[self.equation()][scan] not in (self.equation(), DROPPED)


class Entries:
    """A spell of which only the entries are known, those that each run lends."""

    def __init__(self, equation=0):
        self.at = equation

    def lend(self, table):
        self.table = table

    def entry(self, scan):
        return self.table[CODES * self.at + scan]

    def drops(self, scan):
        return self.entry(scan) == DESK.mark

    def keep(self, scan):
        self.at = self.entry(scan)

    def equation(self):
        return self.at

    def would_move(self, scan):
        return self.entry(scan) not in (self.at, DESK.mark)


@dataclass(frozen=True)
class OnDuty:
    """A place of the state. Its spell is none of what the state shows."""

    number: int
    base: int
    count: int
    equation: int
    spell: object = None

    def __str__(self):
        return f"{self.number} {self.base} {self.count} {self.equation}"

    def is_unfit(self, tables):
        """The condition of 16 for its table, and for its equation."""
        return is_unfit(tables[self.base :], self.count, self.equation)


VACANT = OnDuty(0, 0, 0, 0)


@dataclass(frozen=True)
class DutyRan:
    """What a run returns beside the state; and of each scan, which places would drop it and which it would move."""

    refusal: object
    kept: int = 0
    dropped: int = 0
    dropping: tuple = ()
    moved: tuple = ()


class Desk:
    """The state: a count, and four places. The rules on duty have the first ones, by arrival."""

    def __init__(self):
        self.settle([])

    def __str__(self):
        return " ".join(map(str, [self.count, *self.places]))

    def hand_in(self, count, places):
        """The state becomes this, whatever it is."""
        self.count = count
        self.places = list(places)

    def settle(self, rules):
        """These are on duty, and the other places are vacant."""
        self.hand_in(len(rules), rules + [VACANT] * (MOST_ON_DUTY - len(rules)))

    def rules(self):
        return self.places[: self.count]

    def numbers(self):
        return [rule.number for rule in self.rules()]

    def is_sound(self):
        return self.count <= MOST_ON_DUTY and len(set(self.numbers())) == self.count

    def come_on(self, rule, tables):
        """The rule, in its first equation, comes on. Gives the refusal, or None."""
        if not self.is_sound():
            return Refusal(16, 0)
        if self.count == MOST_ON_DUTY:
            return Refusal(19, 0)
        if rule.number in self.numbers():
            return Refusal(20, 0)
        if rule.is_unfit(tables):
            return Refusal(16, 0)
        self.settle(self.rules() + [rule])
        return None

    def go_off(self, number):
        if not self.is_sound():
            return Refusal(16, 0)
        if number not in self.numbers():
            return Refusal(21, 0)
        self.settle([rule for rule in self.rules() if rule.number != number])
        return None

    def refusal_of_run(self, tables, scans, output, verdicts):
        if is_short(scans, output, verdicts):
            return Refusal(15, 0)
        if not self.is_sound() or any(rule.is_unfit(tables) for rule in self.rules()):
            return Refusal(16, 0)
        return None

    def run(self, tables, scans, output, verdicts):
        """The two buffers are changed in place."""
        refusal = self.refusal_of_run(tables, scans, output, verdicts)
        if refusal is not None:
            return DutyRan(refusal)
        spells = [rule.spell for rule in self.rules()]
        for rule in self.rules():
            rule.spell.lend(tables[rule.base :])
        kept, dropping, moved = 0, [], []
        for place, scan in enumerate(scans):
            moved.append([spell.would_move(scan) for spell in spells])
            dropping.append([spell.drops(scan) for spell in spells])
            verdicts[place] = any(dropping[-1])
            if not any(dropping[-1]):
                output[kept] = scan
                kept += 1
                for spell in spells:
                    spell.keep(scan)
        self.settle([replace(rule, equation=rule.spell.equation()) for rule in self.rules()])
        return DutyRan(None, kept, len(scans) - kept, tuple(dropping), tuple(moved))
