"""Runs over tables of many equations: of rules, of no rule, and damaged ones."""
from compare import expect
from equations import CODES, DESK, rows
from expected import MOST_ENTRIES
from known import bytes_of, counted
from known_wide import TOO_WIDE, WIDEST, counted_beside, later, registers
from rules import Refusal
from stream_faults import ENTRIES, changed, other_entry
from stream_plays import fit_call, play_long, play_refused_rule, play_rule, run_foreign

# Rules of 256, 257, 512 and 1,000 equations, some of which drop no scan; and rules of too many.
RULES = [later(8), counted(8), counted(8, "3"), counted_beside(8), later(9), registers(28), WIDEST]
REFUSED = [registers(29), TOO_WIDE, counted(10)]

# Counts of tables of no rule.
COUNTS = [3, 255, 256, 257, 999, 1000]


def dropping_parts_of(random, script, start, size):
    """Of so many entries from a place on, some parts drop."""
    for _ in range(random.choice([4, 40])):
        place = random.randrange(size)
        length = min(random.choice([1, 2, 60, 256]), size - place)
        script.prepare(DESK.mark, 0, DESK.mark, start + place, length)


def play_damaged(random, script):
    """Entries at the first place, at the last and at another that are or aren't under the count. Then the runs go on."""
    last = CODES * script.count - 1
    for place in (0, last, random.randrange(last)):
        for entry in {*ENTRIES, script.count - 1, script.count, DESK.mark}:
            with other_entry(script, place, entry):
                script.begin()
                ran, _, _ = script.call(bytes([5, 255]), last + 1, 2, 2)
                is_fit = entry < script.count or entry == DESK.mark
                expect((ran.refusal is None) == is_fit, "a damaged table", script.count, entry)


def play_counts(random, script):
    """The count and one more, with rows for both or an entry too few."""
    own, equation = script.count, random.randrange(script.count)
    for count in (own, own + 1):
        for lent in (CODES * count - 1, CODES * count, MOST_ENTRIES):
            with changed(script.set_count, count, own):
                script.set_state(equation)
                script.call(random.randbytes(3), lent, 3, 3)
                script.set_state(count)
                ran, _, _ = script.call(random.randbytes(3), lent, 3, 3)
                expect(str(ran.refusal) == "refused 16 at 0", "a state that is the count", count)


def play_tables(random, script, number, count):
    """A table of no rule, each entry of which is further than the one before by one step, but for parts that drop."""
    step = random.choice([1, 7, 263, random.randrange(count)])
    script.prepare(random.randrange(65536), 263)
    script.prepare(random.randrange(count), step, count - 1, 0, CODES * count)
    if number % 3 > 0:
        dropping_parts_of(random, script, 0, CODES * count)
    script.set_count(count)
    play_damaged(random, script)
    play_counts(random, script)
    run_foreign(random, script, count)
    if count > 255:
        script.write(CODES * 255, [255, DESK.mark, 0])
        script.set_state(255)
        for scans in ([0], [0, 1], [1, 0, 1], [0, 2]):
            fit_call(random, script, bytes(scans))


def play(random, script):
    for number, text in enumerate(RULES):
        play_rule(random, script, number, bytes_of(text))
        play_damaged(random, script)
        play_counts(random, script)
    for text in (later(8), registers(28)):
        play_long(random, script, bytes_of(text), 600)
    for text in REFUSED:
        expect(str(rows(bytes_of(text))) == str(Refusal(9, 0)), "a rule of too many equations", text)
        play_refused_rule(random, script, bytes_of(registers(28)), bytes_of(text))
    for number, count in enumerate(COUNTS * 2):
        play_tables(random, script, number, count)
