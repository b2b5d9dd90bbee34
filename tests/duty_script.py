"""The input of the test program `duties`, record by record, and the lines that it must print."""
import duty_sorts
from duty import MOST_ON_DUTY, Desk, OnDuty
from equations import fill, said
from expected import digest, eight_bytes, three_bytes
from merging import fill_short
from stream_script import Records


def answer_of(refusal):
    return "fit" if refusal is None else str(refusal)


class DutyScript(Records):
    """Holds who is on duty, as the program does. The tally has how often each sort of call came."""

    def __init__(self):
        super().__init__()
        self.new_desk()

    def new_desk(self):
        """Nobody is on duty. Of those that have gone off since, the equations are known in which they were."""
        self.desk = Desk()
        self.gone = {}
        self.was_full = False
        self.is_given = False

    def fill(self, place, data, is_short=False):
        """Fills the tables from a place on. Gives the rows, or the refusal."""
        part = self.table[place:]
        counted = (fill_short if is_short else fill)(data, part)
        self.table[place:] = part
        self.lines.append(said(counted))
        self.record(b"m" if is_short else b"r", three_bytes(place), three_bytes(len(data)), data)
        return counted

    def new_day(self):
        self.new_desk()
        self.record(b"n")
        self.tally["days"] += 1

    def hand_in(self, count, places):
        """The state becomes this."""
        self.desk.hand_in(count, places)
        self.is_given = True
        body = eight_bytes(count)
        for place in places:
            body += bytes([place.number]) + b"".join(map(eight_bytes, (place.base, place.count, place.equation)))
        self.record(b"s", body)

    def note(self, call, sorts, had_remains, refusal):
        """Adds a call to the tally."""
        sorts.append("fit" if refusal is None else f"refused {refusal.number}")
        if self.is_given and refusal is not None:
            sorts.append(f"refused {refusal.number} with a state that was handed in")
        self.is_given = self.is_given and refusal is not None
        if had_remains:
            sorts.append(f"places behind the count {'become vacant' if refusal is None else 'stay as given'}")
        self.tally.update(f"{call}: {sort}" for sort in sorts)
        self.was_full = self.was_full or self.desk.count == MOST_ON_DUTY

    def sorts_of_return(self, number):
        """Of a rule that came on last: whether its number was on before, and whether its place was freed."""
        is_again = number in self.gone
        yield from ["again after a later equation"] * (is_again and self.gone[number] > 0)
        yield from ["again behind another"] * (is_again and self.desk.count > 1)
        yield from ["a place that was freed"] * (self.was_full and self.desk.count == MOST_ON_DUTY)

    def come_on(self, number, lent, base, count, spell=None):
        """A rule comes on. Gives the refusal, or None."""
        rule, tables = OnDuty(number, base, count, 0, spell), self.table[:lent]
        sorts, had_remains = list(duty_sorts.of_coming(self.desk, rule, tables)), duty_sorts.has_remains(self.desk)
        refusal = self.desk.come_on(rule, tables)
        self.lines.append(f"{answer_of(refusal)} {self.desk}")
        self.record(b"a", bytes([number]), three_bytes(lent), eight_bytes(base), eight_bytes(count))
        sorts += [] if refusal else self.sorts_of_return(number)
        self.note("coming", sorts, had_remains, refusal)
        return refusal

    def go_off(self, number):
        sorts, had_remains = list(duty_sorts.of_going(self.desk, number)), duty_sorts.has_remains(self.desk)
        leaving = {rule.number: rule.equation for rule in self.desk.rules() if rule.number == number}
        refusal = self.desk.go_off(number)
        self.gone |= {} if refusal else leaving
        self.lines.append(f"{answer_of(refusal)} {self.desk}")
        self.record(b"l", bytes([number]))
        self.note("going", sorts, had_remains, refusal)
        return refusal

    def run(self, scans, lent, output_size, verdicts_size):
        """A run with so many entries of the tables and bytes of each buffer. Gives what it returns, and the buffers then."""
        output, verdicts = self.buffers(output_size, verdicts_size)
        tables, had_remains = self.table[:lent], duty_sorts.has_remains(self.desk)
        sorts = list(duty_sorts.of_run(self.desk, tables, scans, output, verdicts))
        ran = self.desk.run(tables, scans, output, verdicts)
        answer = answer_of(ran.refusal)
        self.lines.append(f"{answer} {answer} {self.desk} {ran.kept} {ran.dropped} {digest(output)} {digest(verdicts)}")
        self.record(b"c", *[three_bytes(size) for size in (lent, output_size, verdicts_size, len(scans))], scans)
        self.note("run", sorts, had_remains, ran.refusal)
        self.tally.update(f"scan: {sort}" for sort in duty_sorts.of_scans(ran))
        self.tally["scans kept"] += ran.kept
        self.tally["scans dropped"] += ran.dropped
        return ran, output, verdicts
