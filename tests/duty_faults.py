"""Calls on duty that are refused, between others. The day goes on as if they had not been made.

Each fault is given its number by hand, from C-18."""
from contextlib import contextmanager, nullcontext
from dataclasses import replace

from compare import expect
from duty import MOST_ON_DUTY, OnDuty
from equations import CODES, DESK
from stream_faults import COUNTS, STATES, enough, other_entry, short_sizes, too_high
from expected import MOST_ENTRIES

# Bases near 2^64: with some of them the rows of a rule would end where the lent tables begin, or in them.
BASES = [2**64 - 1, 2**64 - 255, 2**64 - 256, 2**64 - 512, 2**64 - 768, 2**64 - 65536]

# Counts of a state with over four rules.
OVER_FOUR = [5, 5, 6, 8, 255, 256, 257, 2**32, 2**32 + 1, 2**63, 2**64 - 1, 2**64 - 1]


def free_number(random, desk):
    """A number that isn't on duty: one that stands behind the count, 0, 255 or another."""
    behind = [place.number for place in desk.places[desk.count :]]
    numbers = [number for number in behind + [0, 255, random.randrange(256)] if number not in desk.numbers()]
    return random.choice(numbers) if numbers else next(n for n in range(256) if n not in desk.numbers())


def unfit_tables(random, table):
    """Ways to lend a table that is fit, so that it is unfit: how much is lent, the base and the count."""
    lent = random.choice([table.end, table.end, MOST_ENTRIES, random.randrange(table.end, MOST_ENTRIES + 1)])
    low = min(table.base, MOST_ENTRIES - CODES * (DESK.most + 1))
    return [
        (table.end - 1, table.base, table.count),
        (random.randrange(table.base, table.end), table.base, table.count),
        (lent, lent, table.count),
        (lent, lent + random.choice([1, 1, 255, 256, 65536]), table.count),
        (lent, random.choice(BASES + [2**64 - CODES * table.count, 2**64 - table.base - 1]), table.count),
        (lent, table.base, 0),
        (MOST_ENTRIES, low, DESK.most + 1),
        (lent, table.base, random.choice(COUNTS)),
    ]


def wrong_entry(random, script, table):
    """Changes an entry of a table to one that is too high: the first, the last or another."""
    place = random.choice([table.base, table.end - 1, random.randrange(table.base, table.end)])
    return other_entry(script, place, too_high(random, table.count))


def refused_coming(random, script, table):
    """A coming with a known number, with an unfit table, with both, or while four are on."""
    desk = script.desk
    is_known = desk.count > 0 and random.randrange(2) == 0
    is_unfit = random.randrange(2) == 0 or not (is_known or desk.count == MOST_ON_DUTY)
    is_entry = is_unfit and random.randrange(5) == 0
    lending = (MOST_ENTRIES, table.base, table.count)
    if is_unfit and not is_entry:
        lending = random.choice(unfit_tables(random, table))
    number = random.choice(desk.numbers()) if is_known else free_number(random, desk)
    wanted = 19 if desk.count == MOST_ON_DUTY else 20 if is_known else 16
    with wrong_entry(random, script, table) if is_entry else nullcontext():
        expect_refused(script, wanted, lambda: script.come_on(number, *lending))


def refused_going(random, script):
    expect_refused(script, 21, lambda: script.go_off(free_number(random, script.desk)))


def expect_refused(script, number, call):
    """The call is refused, and changes nothing of the state."""
    before = str(script.desk)
    refusal = call()
    expect(str(refusal) == f"refused {number} at 0", "a fault", number, str(refusal))
    expect(str(script.desk) == before, "a refused call", before, str(script.desk))


@contextmanager
def handed_in(script, count, places):
    """Hands a state in for the calls inside, and then the one before."""
    before = script.desk.count, list(script.desk.places)
    script.hand_in(count, places)
    yield
    script.hand_in(*before)


def unfit_rules(random, rule):
    """The rule with another equation, another count or another base, each of which makes it unfit."""
    counts, bases = [0, DESK.most + 1, random.choice(COUNTS)], [MOST_ENTRIES, MOST_ENTRIES + random.choice([1, 256]), random.choice(BASES)]
    others = [replace(rule, count=count) for count in counts] + [replace(rule, base=base) for base in bases]
    return others + [replace(rule, equation=equation) for equation in (rule.count, random.choice(STATES))]


def with_rule(script, place, rule):
    """Hands the state in with this rule at a place, and then the one before."""
    places = list(script.desk.places)
    places[place] = rule
    return handed_in(script, script.desk.count, places)


def refused_run(random, script, scans, tables):
    """A run with short buffers, with an unfit rule, or with both. The tables of the rules on duty are given by arrival."""
    desk = script.desk
    is_unfit = desk.count > 0 and random.randrange(3) > 0
    is_short = len(scans) > 0 and (not is_unfit or random.randrange(3) == 0)
    if not (is_unfit or is_short):
        return
    sizes = short_sizes(random, len(scans)) if is_short else [enough(random, len(scans)) for _ in range(2)]
    lent, changed = MOST_ENTRIES, nullcontext()
    if is_unfit:
        place = random.randrange(desk.count)
        way = random.randrange(4)
        if way == 0:
            lent = max(table.end for table in tables) - 1
        elif way == 1:
            changed = wrong_entry(random, script, tables[place])
        else:
            changed = with_rule(script, place, random.choice(unfit_rules(random, desk.places[place])))
    with changed:
        expect_refused(script, 15 if is_short else 16, lambda: script.run(scans, lent, *sizes)[0].refusal)


def remains(random, desk):
    """What may stand in a place that no rule has: numbers that are on duty, and anything else."""
    number = random.choice(desk.numbers() + [0, random.randrange(256)])
    base = random.choice([0, random.randrange(MOST_ENTRIES)] + BASES)
    count, equation = random.choice([0, 1, 3] + COUNTS), random.choice([0, 1, 2] + STATES)
    return OnDuty(number, base, count, equation)


def hand_in_remains(random, script):
    """The same rules are on duty, and anything stands behind them."""
    desk = script.desk
    places = desk.rules() + [remains(random, desk) for _ in range(MOST_ON_DUTY - desk.count)]
    script.hand_in(desk.count, places)


def refused_by_state(random, script, table, scans):
    """Each call, over a state that is unsound: a run is refused by 15 where its buffers are short."""
    desk = script.desk
    number = random.choice([place.number for place in desk.places] + [random.randrange(256)])
    expect_refused(script, 16, lambda: script.come_on(number, MOST_ENTRIES, table.base, table.count))
    expect_refused(script, 16, lambda: script.go_off(number))
    expect_refused(script, 16, lambda: script.run(scans, MOST_ENTRIES, len(scans), len(scans))[0].refusal)
    if scans:
        expect_refused(script, 15, lambda: script.run(scans, MOST_ENTRIES, *short_sizes(random, len(scans)))[0].refusal)


def over_four(random, script, table, scans):
    """The state with a count over four."""
    with handed_in(script, random.choice(OVER_FOUR), script.desk.places):
        refused_by_state(random, script, table, scans)


def two_places(random):
    """How many rules are on duty, and two of their places."""
    count = random.randrange(2, MOST_ON_DUTY + 1)
    return count, *random.sample(range(count), 2)


def twice(random, script, table, scans, count, one, other):
    """The state with so many rules on duty, of which two have one number, and no other two."""
    numbers = random.sample(range(256), MOST_ON_DUTY)
    numbers[other] = numbers[one]
    places = [replace(place, number=number) for place, number in zip(script.desk.places, numbers)]
    with handed_in(script, count, places):
        refused_by_state(random, script, table, scans)
