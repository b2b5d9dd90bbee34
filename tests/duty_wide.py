"""Days of rules with many equations, and of tables of no rule with many."""
import duty_entries
import duty_plays
import duty_rules
from compare import expect
from duty import Entries, OnDuty
from equations import CODES, DESK, rows
from known import bytes_of, counted
from known_wide import WIDEST, later, registers
from stream_faults import ENTRIES, other_entry
from stream_wide import dropping_parts_of

# Tables of no rule that stand side by side, by their counts. With 1,000 and 24 they take up all of the space.
COUNTS = [[255, 256, 257], [257, 3, 256, 255], [1000, 24], [24, 1000], [1000]]


def tiny(random):
    """A rule whose table fits twice beside one of 1,000 equations."""
    return random.choice([data for data in duty_rules.small() if len(rows(data)) <= 12])


def groups(random):
    """Rules of 256, 512 and 1,000 equations, alone and beside others."""
    for text in (later(8), later(9), counted(8, "3"), registers(28), WIDEST):
        yield [bytes_of(text)]
        yield [bytes_of(text), tiny(random)]
        yield [tiny(random), bytes_of(text), tiny(random)]
    yield [bytes_of(later(8)), bytes_of(later(9))]


def play_damaged(script, tables, lent):
    """Each table with entries at its ends that are or aren't under its count: a run and a coming are refused or not."""
    desk = script.desk
    for base, count in tables:
        for place, entry in zip([base, base + CODES * count - 1] * len(ENTRIES), ENTRIES + [DESK.mark]):
            with other_entry(script, place, entry):
                is_fit = entry < count or entry == DESK.mark
                ran, _, _ = script.run(bytes(), lent, 0, 0)
                expect((ran.refusal is None) == is_fit, "a run over a damaged table", count, entry)
                free = next(number for number in range(256) if number not in desk.numbers())
                refusal = script.come_on(free, lent, base, count, Entries())
                expect((refusal is None) == is_fit, "a coming with a damaged table", count, entry)
                if is_fit:
                    script.go_off(free)


def play_tables(random, script, number, counts):
    """Tables of no rule side by side, whose entries go by steps, but for parts that drop. All rules but one are handed in, the first in
    equation 255 if it has one."""
    script.prepare(*duty_plays.BEHIND[number % len(duty_plays.BEHIND)])
    tables, end = [], 0
    for count in counts:
        script.prepare(random.randrange(count), random.choice([1, 7, 263]), count - 1, end, CODES * count)
        dropping_parts_of(random, script, end, CODES * count)
        tables.append((end, count))
        end += CODES * count
    script.new_day()
    names = random.sample(range(256), len(tables))
    equations = [min(255, counts[0] - 1)] + [random.randrange(count) for count in counts[1:]]
    places = [OnDuty(name, *table, at, Entries(at)) for name, table, at in zip(names, tables[:-1] or tables, equations)]
    script.desk.settle(places)
    script.hand_in(len(places), script.desk.places)
    if len(tables) > 1:
        expect(script.come_on(names[-1], end, *tables[-1], Entries()) is None, "a coming with many equations")
    for _ in range(4):
        duty_entries.fit_run(random, script, end, duty_entries.scans_for(random))
    if len(tables) < 4:
        play_damaged(script, tables, end)
    duty_entries.fit_run(random, script, end, duty_entries.scans_for(random))
    script.tally["days by entries: tables of many equations"] += 1


def days(random):
    for number, files in enumerate(groups(random)):
        yield duty_plays.play_day, number, files
    for number in range(4):
        yield duty_plays.play_one_table, number, bytes_of(later(8))
    for number, counts in enumerate(COUNTS * 3):
        yield play_tables, number, counts
