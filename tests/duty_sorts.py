"""Sorts of calls on duty, by what is handed in, and how many of each sort there have to be."""
from duty import MOST_ON_DUTY, VACANT, Spell
from equations import CODES, DESK
from running import is_short

# There are at least so many calls or scans of each sort.
LEAST = 10

UNSOUND = ["over four rules", "2^64 - 1 rules", "a number twice"]
UNFIT = ["base at the end", "base behind the end", "base near 2^64", "count 0", "count 1001", "a huge count"]
UNFIT += ["an entry too short", "an entry out of range"]

# Entries that are out of range, where one byte and two end and at the limit; and counts about which 255 is a number as others are, and the most.
ENTRIES = [255, 1000, 65534]
OUT_OF_RANGE = [f"entry {entry} out of range" for entry in ENTRIES]
WIDE = [255, 256, 257, 1000]

SORTS = [f"{call}: {sort}" for call in ("coming", "going", "run") for sort in UNSOUND]
SORTS += [f"{call}: {sort}" for call in ("coming", "run") for sort in UNFIT]
SORTS += ["coming: four are on", "coming: four are on and so is the number", "coming: the number is on"]
SORTS += ["coming: the number is on and the table is unfit", "coming: a table that just fits", "coming: a base inside a row"]
SORTS += ["coming: number 0 beside vacant places", "coming: a number that stands behind the count"]
SORTS += ["coming: again after a later equation", "coming: again behind another", "coming: a place that was freed"]
SORTS += [f"{call}: beside an equation not under its count" for call in ("coming", "going")]
SORTS += ["going: not on", "going: number 0 beside vacant places", "going: a number that stands behind the count"]
SORTS += [f"going: {which} of several" for which in ("first", "one between", "last")] + ["going: others in later equations"]
SORTS += ["run: 15 before 16 for the state", "run: 15 before 16 for a table", "run: an equation not under its count"]
SORTS += [f"run: place {place} alone is unfit" for place in range(MOST_ON_DUTY)]
SORTS += [f"run: {count} on duty" for count in range(MOST_ON_DUTY + 1)] + ["run: no scans", "run: four rules with one table"]
SORTS += ["run: long and short tables", "run: a number twice behind the count"]
SORTS += [f"scan: place {place} of several alone drops it" for place in range(MOST_ON_DUTY)]
SORTS += ["scan: several drop it", "scan: dropped though another rule would move", "scan: kept and moves several"]
SORTS += [f"{call}: places behind the count {what}" for call in ("coming", "going", "run") for what in ("become vacant", "stay as given")]
SORTS += [f"coming: refused {number} with a state that was handed in" for number in (16, 19, 20)]
SORTS += [f"going: refused {number} with a state that was handed in" for number in (16, 21)]
SORTS += [f"run: refused {number} with a state that was handed in" for number in (15, 16)]
SORTS += [f"joins: {size} rules {answer}" for size in (2, 3, 4) for answer in ("accepted", "refused 4")]
SORTS += [f"joins: {size} rules refused 9" for size in (2, 3)]
SORTS += [f"joins: {size} rules with over 128 equations" for size in (2, 3)]
SORTS += ["joins: scans dropped between comings", "joins: each of several rules alone drops a scan"]
SORTS += [f"{call}: {sort}" for call in ("coming", "run") for sort in OUT_OF_RANGE]
SORTS += [f"run: a rule of {count} equations" for count in WIDE] + ["run: a rule in equation 255"]
SORTS += ["days by entries: tables of many equations"]
SORTS += ["days by entries: tables of no rule", "days by entries: rows that change", "days of large tables"]


def has_remains(desk):
    """Whether something stands in a place that no rule has."""
    return any(place != VACANT for place in desk.places[desk.count :])


def behind(desk):
    """The numbers in the places that no rule has, where one of these isn't vacant."""
    return [place.number for place in desk.places[desk.count :] if place != VACANT]


def of_state(desk):
    """Why a state is unsound."""
    if desk.count > MOST_ON_DUTY:
        yield "over four rules"
        yield from ["2^64 - 1 rules"] * (desk.count == 2**64 - 1)
    elif not desk.is_sound():
        yield "a number twice"


def of_unfit(rule, tables):
    """Why a rule is unfit."""
    end = rule.base + CODES * rule.count
    yield from ["base at the end"] * (rule.base == len(tables))
    yield from ["base behind the end"] * (rule.base > len(tables))
    yield from ["base near 2^64"] * (rule.base >= 2**64 - 2**17)
    if rule.count == 0:
        yield "count 0"
    elif rule.count > DESK.most:
        yield "count 1001" if rule.count == DESK.most + 1 else "a huge count"
    elif rule.equation >= rule.count:
        yield "an equation not under its count"
    elif end > len(tables):
        yield from ["an entry too short"] * (end == len(tables) + 1)
    else:
        yield "an entry out of range"
        own = tables[rule.base : end]
        yield from [sort for entry, sort in zip(ENTRIES, OUT_OF_RANGE) if entry >= rule.count and entry in own]


def of_others(desk):
    """Whether a rule on duty is unfit by itself, which only a run minds."""
    yield from ["beside an equation not under its count"] * any(rule.equation >= rule.count for rule in desk.rules())


def of_coming(desk, rule, tables):
    if not desk.is_sound():
        yield from of_state(desk)
    elif desk.count == MOST_ON_DUTY:
        yield "four are on and so is the number" if rule.number in desk.numbers() else "four are on"
    elif rule.number in desk.numbers():
        yield "the number is on and the table is unfit" if rule.is_unfit(tables) else "the number is on"
    elif rule.is_unfit(tables):
        yield from of_unfit(rule, tables)
    else:
        yield from ["a table that just fits"] * (rule.base + CODES * rule.count == len(tables))
        yield from ["a base inside a row"] * (rule.base % CODES > 0)
        yield from ["number 0 beside vacant places"] * (rule.number == 0 and VACANT in desk.places[desk.count :])
        yield from ["a number that stands behind the count"] * (rule.number in behind(desk))
        yield from of_others(desk)


def of_going(desk, number):
    if not desk.is_sound():
        yield from of_state(desk)
    elif number not in desk.numbers():
        yield "not on"
        yield from ["number 0 beside vacant places"] * (number == 0 and VACANT in desk.places[desk.count :])
        yield from ["a number that stands behind the count"] * (number in behind(desk))
    elif desk.count > 1:
        yield from of_others(desk)
        place = desk.numbers().index(number)
        yield "first of several" if place == 0 else "last of several" if place == desk.count - 1 else "one between of several"
        yield from ["others in later equations"] * any(rule.equation for rule in desk.rules() if rule.number != number)


def of_fit_run(desk, scans):
    rules = desk.rules()
    yield f"{desk.count} on duty"
    yield from ["no scans"] * (not scans)
    yield from [f"a rule of {rule.count} equations" for rule in rules if rule.count in WIDE]
    yield from ["a rule in equation 255"] * any(rule.equation == 255 for rule in rules)
    yield from ["four rules with one table"] * (desk.count == MOST_ON_DUTY and len({(r.base, r.count) for r in rules}) == 1)
    shortened = {rule.spell.is_short_table for rule in rules if isinstance(rule.spell, Spell)}
    yield from ["long and short tables"] * (len(shortened) == 2)
    yield from ["a number twice behind the count"] * (len({*desk.numbers(), *behind(desk)}) < desk.count + len(behind(desk)))


def of_run(desk, tables, scans, output, verdicts):
    unfit = [place for place, rule in enumerate(desk.rules()) if rule.is_unfit(tables)]
    if is_short(scans, output, verdicts):
        yield from ["15 before 16 for the state"] * (not desk.is_sound())
        yield from ["15 before 16 for a table"] * (desk.is_sound() and unfit != [])
    elif not desk.is_sound():
        yield from of_state(desk)
    elif unfit:
        yield from [f"place {unfit[0]} alone is unfit"] * (len(unfit) == 1 and desk.count > 1)
        yield from [sort for place in unfit for sort in of_unfit(desk.places[place], tables)]
    else:
        yield from of_fit_run(desk, scans)


def of_scans(ran):
    """Sorts of the scans that came while several rules were on duty."""
    for dropping, moved in zip(ran.dropping, ran.moved):
        if len(dropping) > 1 and any(dropping):
            yield "several drop it" if sum(dropping) > 1 else f"place {dropping.index(True)} of several alone drops it"
            yield from ["dropped though another rule would move"] * any(moved)
        elif sum(moved) > 1:
            yield "kept and moves several"
