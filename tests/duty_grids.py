"""Days of faults, each sort at each place, between runs of rules that go on as if nothing had been."""
from dataclasses import replace
from itertools import combinations

import duty_faults
from compare import expect
from duty import MOST_ON_DUTY
from duty_plays import new_day
from expected import MOST_ENTRIES


def all_on(random, script, number, files, count):
    """A day with so many of the rules on duty, and some scans kept."""
    day = new_day(random, script, number, files)
    for table, name in zip(day.tables, random.sample(range(1, 256), count)):
        day.come_on(table, name)
    day.run_some(6, 0.3)
    return day


def only_first(day, count):
    """So many rules are still on duty. The others stand behind the count, all under the number of the first."""
    desk = day.script.desk
    first, others = desk.places[:count], desk.places[count:]
    for rule in others[: desk.count - count]:
        day.forget(rule.number)
    day.script.hand_in(count, first + [replace(rule, number=first[0].number) for rule in others])


def play_twice(random, script, number, files):
    """A number twice, at each two places, with each count that has both; and then behind the count, where it does no harm."""
    day = all_on(random, script, number, files, MOST_ON_DUTY)
    scans = random.randbytes(3)
    for one, other in combinations(range(MOST_ON_DUTY), 2):
        for count in range(other + 1, MOST_ON_DUTY + 1):
            duty_faults.twice(random, script, random.choice(day.tables), scans, count, one, other)
    for count in (4, 3, 2, 1):
        only_first(day, count)
        day.run_some(6, 0.6)


def play_over_four(random, script, number, files):
    day = all_on(random, script, number, files, number % (MOST_ON_DUTY + 1))
    for count in sorted({*duty_faults.OVER_FOUR}):
        with duty_faults.handed_in(script, count, script.desk.places):
            duty_faults.refused_by_state(random, script, random.choice(day.tables), random.randbytes(number % 3))
    day.run_some(6, 0.6)


def change_beside(random, script, table):
    """Another rule comes on and goes off again, whatever the rules on duty are."""
    number = duty_faults.free_number(random, script.desk)
    if script.desk.count < MOST_ON_DUTY:
        expect(script.come_on(number, MOST_ENTRIES, table.base, table.count) is None, "a coming beside an unfit rule")
        expect(script.go_off(number) is None, "a going beside an unfit rule")


def play_unfit(random, script, number, files):
    """Each rule on duty in turn is unfit: by its equation, its count or its base, or by an entry. Then a run is refused, and with
    short buffers it is so by 15; but another rule comes on and goes off as ever."""
    day = all_on(random, script, number, files, number % MOST_ON_DUTY + 1)
    scans = random.randbytes(2)
    for place, rule in enumerate(script.desk.rules()):
        for other in random.sample(duty_faults.unfit_rules(random, rule), 3):
            with duty_faults.with_rule(script, place, other):
                duty_faults.expect_refused(script, 16, lambda: script.run(scans, MOST_ENTRIES, 2, 2)[0].refusal)
                duty_faults.expect_refused(script, 15, lambda: script.run(scans, MOST_ENTRIES, 2, 1)[0].refusal)
                change_beside(random, script, day.tables[0])
        with duty_faults.wrong_entry(random, script, day.on[rule.number]):
            duty_faults.expect_refused(script, 16, lambda: script.run(b"", MOST_ENTRIES, 0, 0)[0].refusal)
    day.run_some(6, 0.6)


def play_unfit_tables(random, script, number, files):
    """The state is handed in as it is. A table comes on in each way that makes it unfit: that is 16, 20 where the number is on, and
    19 where four are."""
    day = all_on(random, script, number, files, number % (MOST_ON_DUTY + 1))
    desk, table = script.desk, random.choice(day.tables)
    script.hand_in(desk.count, desk.places)
    for lending in duty_faults.unfit_tables(random, table):
        wanted = 19 if desk.count == MOST_ON_DUTY else 16
        duty_faults.expect_refused(script, wanted, lambda: script.come_on(duty_faults.free_number(random, desk), *lending))
        if 0 < desk.count < MOST_ON_DUTY:
            duty_faults.expect_refused(script, 20, lambda: script.come_on(random.choice(desk.numbers()), *lending))
    with duty_faults.wrong_entry(random, script, table):
        wanted = 19 if desk.count == MOST_ON_DUTY else 16
        number = duty_faults.free_number(random, desk)
        duty_faults.expect_refused(script, wanted, lambda: script.come_on(number, table.end, table.base, table.count))
    day.run_some(6, 0.6)


def play_remains(random, script, number, files):
    """Anything stands behind the rules on duty. A refused call hands it back, and any other call takes it away."""
    day = all_on(random, script, number, files, number % MOST_ON_DUTY)
    for call in ("come", "run", "go"):
        duty_faults.hand_in_remains(random, script)
        duty_faults.refused_going(random, script)
        duty_faults.refused_coming(random, script, random.choice(day.tables))
        duty_faults.refused_run(random, script, random.randbytes(2), day.tables_on())
        if call == "come":
            day.come_on(random.choice(day.tables), duty_faults.free_number(random, script.desk))
        elif call == "run":
            day.run_some(5, 0.5)
        else:
            day.go_off(random.choice(list(day.on)))
    day.run_some(6, 0.6)
