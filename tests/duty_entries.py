"""Days of tables that no rule has, or whose rows change between runs. What is dropped goes by the entries that each run lends."""
import duty_faults
from compare import expect
from compare_runs import check_conserved
from duty import MOST_ON_DUTY, Entries, OnDuty
from duty_plays import set_up_anew
from equations import CODES, DESK, rows
from stream_faults import enough, other_entry
from stream_plays import BEHIND
from expected import MOST_ENTRIES

COUNTS = [1, 1, 2, 2, 3, 5, 16, 64, 128]


def fit_run(random, script, lent, scans):
    ran, output, verdicts = script.run(scans, lent, *[enough(random, len(scans)) for _ in range(2)])
    expect(ran.refusal is None, "a run by entries", str(ran.refusal))
    check_conserved(scans, ran, output, verdicts)


def scans_for(random):
    """Scans of which some come again and again."""
    codes = random.sample(range(CODES), 3) + list(random.randbytes(5))
    return bytes(random.choice(codes) for _ in range(random.randrange(12)))


def play_foreign(random, script, number, rate):
    """Tables at random that may lie one over the other. The rules are handed in in any equations, or come on."""
    counts = [random.choice(COUNTS) for _ in range(random.randrange(1, MOST_ON_DUTY + 1))]
    size = CODES * max(counts) + random.randrange(2000)
    entries = [DESK.mark if random.random() < rate else random.randrange(min(counts)) for _ in range(size)]
    script.prepare(*BEHIND[number % len(BEHIND)])
    script.write(0, entries)
    script.new_day()
    numbers = random.sample(range(256), len(counts))
    bases = [random.randrange(size - CODES * count + 1) for count in counts]
    equations = [random.choice([0, count - 1, random.randrange(count)]) for count in counts]
    handed_in = random.randrange(len(counts) + 1)
    given = zip(numbers[:handed_in], bases, counts, equations)
    script.desk.settle([OnDuty(*place, Entries(place[-1])) for place in given])
    script.hand_in(handed_in, script.desk.places)
    for place in range(handed_in, len(counts)):
        expect(script.come_on(numbers[place], size, bases[place], counts[place], Entries()) is None, "a foreign coming")
        fit_run(random, script, size, scans_for(random))
    for _ in range(3):
        fit_run(random, script, random.choice([size, MOST_ENTRIES]), scans_for(random))
    script.go_off(random.choice(numbers))
    fit_run(random, script, size, scans_for(random))
    script.tally["days by entries: tables of no rule"] += 1


def play_changed(random, script, number, data, others):
    """A rule's rows change between runs: to those of another rule with no more equations, or in one entry. With an entry that
    is too high the run is refused, and goes on when the entry is as it was."""
    table, beside = set_up_anew(random, script, number, [data, random.choice(others)])
    script.new_day()
    for place, name in zip((table, beside, table), random.sample(range(256), 3)):
        expect(script.come_on(name, MOST_ENTRIES, place.base, place.count, Entries()) is None, "a coming")
    fit_run(random, script, MOST_ENTRIES, scans_for(random))
    fitting = [other for other in others if len(rows(other)) <= table.count]
    script.fill(table.base, random.choice(fitting))
    fit_run(random, script, MOST_ENTRIES, scans_for(random))
    with duty_faults.wrong_entry(random, script, table):
        scans = scans_for(random)
        duty_faults.expect_refused(script, 16, lambda: script.run(scans, MOST_ENTRIES, len(scans), len(scans))[0].refusal)
    fit_run(random, script, MOST_ENTRIES, scans_for(random))
    scans = scans_for(random)
    equation = script.desk.places[0].equation
    for scan in scans[:2]:
        with other_entry(script, table.base + CODES * equation + scan, random.choice([DESK.mark, table.count - 1])):
            fit_run(random, script, MOST_ENTRIES, scans)
    script.tally["days by entries: rows that change"] += 1
