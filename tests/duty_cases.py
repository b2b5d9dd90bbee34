"""The days on which rules on duty are tried. They are the same each time."""
from random import Random

import duty_entries
import duty_grids
import duty_plays
import duty_rules
import duty_typed
import duty_wide
from compare import Disagreement, expect
from duty_script import DutyScript
from duty_sorts import LEAST, SORTS
from equations import rows
from expected import lacking
from stream_plays import RATES

# How many rules a day at random has, by turns.
SIZES = [1, 2, 3, 4, 5, 5]

# So many days at least.
LEAST_DAYS = 600


def random_days(random):
    for number in range(260):
        yield duty_plays.play_day, number, random.sample(duty_rules.small(), SIZES[number % len(SIZES)])
    for number in range(20):
        yield play_large, number, random.sample(duty_rules.large(), 2)


def play_large(random, script, number, files):
    """Two tables, each of up to 128 rows."""
    duty_plays.play_day(random, script, number, files)
    script.tally["days of large tables"] += 1


def joined_days(random):
    groups = []
    for size in (2, 3, 4):
        groups += duty_rules.accepted_groups(random, size, 40)
        groups += duty_rules.refused_groups(random, 4, duty_rules.wide(), size, 10)
    for files, size in ((duty_rules.pool(), 2), (duty_rules.small(), 3)):
        groups += duty_rules.wide_groups(random, files, size, 12)
    for size in (2, 3):
        groups += duty_rules.refused_groups(random, 9, duty_rules.large(), size, 12)
    for number, group in enumerate(groups):
        yield duty_plays.play_join, number, group


def fault_days(random):
    plays = [duty_grids.play_unfit, duty_grids.play_unfit_tables, duty_grids.play_remains]
    for number in range(25):
        for play in plays:
            yield play, number, random.sample(duty_rules.small(), 4)
    for number in range(4):
        yield duty_grids.play_twice, number, random.sample(duty_rules.small(), 4)
    for number in range(10):
        yield duty_grids.play_over_four, number, random.sample(duty_rules.small(), 4)


def other_days(random):
    for number in range(30):
        yield duty_plays.play_again, number, random.sample(duty_rules.small(), random.randrange(2, 5))
        yield duty_plays.play_one_table, number, random.choice(duty_rules.small())


def play_changed(random, script, number, data):
    duty_entries.play_changed(random, script, number, data, duty_rules.small())


def entry_days(random):
    several = [data for data in duty_rules.small() if len(rows(data)) > 1]
    for number in range(25):
        yield duty_entries.play_foreign, number, RATES[number % len(RATES)]
        yield play_changed, number, random.choice(several)


def whole_script():
    random, script = Random("duty"), DutyScript()
    duty_typed.play(script)
    for days in (random_days, joined_days, fault_days, other_days, entry_days, duty_wide.days):
        for play, number, given in days(random):
            try:
                play(random, script, number, given)
            except Disagreement as disagreement:
                raise Disagreement(play, number) from disagreement
    too_few = lacking(script.tally, SORTS, LEAST)
    expect(too_few == [], "too few", too_few)
    expect(script.tally["days"] >= LEAST_DAYS, "too few days", script.tally["days"])
    return script
