"""Sorts of calls over tables of many equations, and of scans that come to equation 255; and how many of each sort there have to be."""
from equations import CODES, DESK, LARGEST_TABLE

# There are at least so many calls or scans of each sort.
LEAST = 10

COUNTS = [255, 256, 257, 999, 1000]

# Entries that are out of range, where one byte and two end and at the limit.
ENTRIES = [255, 256, 1000, 65534]

SORTS = [f"{answer} with {count} equations" for count in COUNTS for answer in ("fit", "16")]
SORTS += [f"16 for entry {entry}" for entry in ENTRIES]
SORTS += ["16 for count 1001", "16 for a table of 255999", "fit with a table of 256000"]
SORTS += ["begins in equation 255", "ends in equation 255", "scans that lead to equation 255"]
SORTS += [f"scans {what} in equation 255" for what in ("kept", "dropped")]


def of_scans(table, state, scans):
    """Sorts of the scans of a run that isn't refused."""
    for scan in scans:
        entry = table[CODES * state + scan]
        if state == 255:
            yield "scans dropped in equation 255" if entry == DESK.mark else "scans kept in equation 255"
        yield from ["scans that lead to equation 255"] * (entry == 255)
        state = state if entry == DESK.mark else entry


def of_entries(table, count):
    """Which of the entries above are out of range in the rows."""
    rows = table[: CODES * count]
    yield from [f"16 for entry {entry}" for entry in ENTRIES if entry >= count and entry in rows]


def of_call(table, count, state, scans, ran):
    """Sorts of a call, by what is handed in and what it answers."""
    if ran.refusal is None:
        yield from [f"fit with {count} equations"] * (count in COUNTS)
        yield from ["fit with a table of 256000"] * (count == DESK.most and len(table) == LARGEST_TABLE)
        yield from ["begins in equation 255"] * (state == 255)
        yield from ["ends in equation 255"] * (ran.state == 255)
        yield from of_scans(table, state, scans)
    elif ran.refusal.number == 16:
        yield from [f"16 with {count} equations"] * (count in COUNTS)
        yield from ["16 for count 1001"] * (count == DESK.most + 1 and len(table) >= CODES * count)
        yield from ["16 for a table of 255999"] * (count == DESK.most and len(table) == LARGEST_TABLE - 1)
        if 0 < count <= DESK.most and state < count and len(table) >= CODES * count:
            yield from of_entries(table, count)
