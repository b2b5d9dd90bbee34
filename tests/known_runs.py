"""Verdicts of sifting, and runs with all that they return and write, typed by hand from the paper. Only the table of
the number-pool rule and two of 256 equations are computed, by the Python equations."""
from array import array

from equations import entries_of, rows
from known import ANY, ONE, POOL, SIX, bytes_of, counted
from known_empty import NEVER_LATER, ROUND_AGAIN
from known_equations import SEVEN
from known_wide import later

# Any code, 5, 6: "6 is never the second code after 5"
SECOND = ANY + ONE + SIX + "6 4 5 0 7 0 5 1 5 0 5 2 3"

# A rule, scans, and the verdict on each.
SIFTED = [
    ("2", "0 5 255", "0 0 0"),
    # "after any code, ff", and the same after a first code
    (ANY + "5 0 3", "0 5 255 5", "1 1 1 1"),
    (ANY + "5 0 5 0 3", "7 0 255 7", "0 1 1 1"),
    # the codes 0 to 9 and 32 to 41, first of all
    ("1 3 0 9 5 0 3", "0 9 32 41 9 10 9", "1 1 1 1 1 0 0"),
    ("1 3 0 9 5 0 3", "31 0", "0 0"),
    ("1 3 0 9 5 0 3", "42 41", "0 0"),
    # the highest code, and then again
    ("1 128 31 31 5 0 3", "255 255 254 255", "1 1 0 0"),
    # a dropped scan doesn't count as the first code after 5
    (SECOND, "5 6 6 6 5 5 6 6 7 6 8 6", "0 0 1 1 0 0 1 1 0 1 0 0"),
    # after a first 5, and any number of 6 and 7, another 5
    (ONE + SIX + SEVEN + "5 0 6 4 5 0 3 4 5 1 7 0 5 2 7 0", "5 5 6 5 7 7 5 8 5", "0 1 0 1 0 0 1 0 0"),
    # an empty pattern takes no scan, and the ff after it drops none
    (NEVER_LATER, "5 5 37 5", "0 0 0 0"),
    (ROUND_AGAIN, "6 5 6 6 5 165 6", "1 0 1 1 0 0 0"),
    # after eight 5 in a row, in equation 255, a 6 is dropped, and after a 9 again
    (later(8), "5 5 5 5 5 5 5 5 6 9 6 5 6", "0 0 0 0 0 0 0 0 1 0 1 0 1"),
    # the pool rule: a sync of any phone starts it again, and a cancel of another slot ends it
    (POOL, "37 159 37 5 5 128 37 5", "0 0 0 1 1 0 0 1"),
    (POOL, "37 38 37 5", "0 0 0 0"),
    (POOL, "128 37 5", "0 0 0"),
    (POOL, "37 127 5", "0 0 0"),
    (POOL, "37 160 5", "0 0 0"),
]


def runs_of(text):
    """Entries that are typed as runs of one value, "256x1 1x9" being 256 times 1 and then 9."""
    pairs = [[int(number) for number in word.split("x")] for word in text.split()]
    return array("H", [value for times, value in pairs for _ in range(times)])


POOL_TABLE = entries_of(rows(bytes_of(POOL)))
# Two rules of 256 equations, in which 5 leads from k to 2 × k + 1 and others to 2 × k, modulo 256. From 128 on the second drops 6.
COUNTED = entries_of(rows(bytes_of(counted(8))))
LATER = entries_of(rows(bytes_of(later(8))))
NO_TABLE = runs_of("")
KEEPER = runs_of("256x0")
DROPPER = runs_of("256x65535")
# Equation 0 drops the codes from 6 up and goes to 1 under the others; 1 goes back.
SWITCH = runs_of("6x1 250x65535 256x0")
# The last of 128 goes to itself and drops 255.
LAST = runs_of("32767x127 1x65535")
# The same of 256, which is equation 255, of 257 and of 1,000.
LAST_OF_256 = runs_of("65535x255 1x65535")
LAST_OF_257 = runs_of("65791x256 1x65535")
LAST_OF_1000 = runs_of("255999x999 1x65535")
# Equation 0 goes to 255 by code 0 and stays else; 255 drops code 0 and goes to 256 by the others; 256 goes to 255.
THROUGH_255 = runs_of("1x255 255x0 65024x0 1x65535 255x256 256x255")

# A table, the count, the state, scans, both buffers; then the state that is returned with the two counts, and what
# the buffers have.
FIT = [
    (POOL_TABLE, 3, 0, "37 5 128 5 37 5", "9 9 9 9 9 9", "8 8 8 8 8 8", "1 5 1", "37 128 5 37 5 9", "0 1 0 0 0 0"),
    (POOL_TABLE, 3, 0, "37", "9 9 9", "8 8", "2 1 0", "37 9 9", "0 8"),
    (POOL_TABLE, 3, 2, "5 5", "9 9", "8 8 8", "2 0 2", "9 9", "1 1 8"),
    (POOL_TABLE, 3, 2, "128 5", "9 9", "8 8", "1 2 0", "128 5", "0 0"),
    (POOL_TABLE, 3, 1, "37 5", "9 9", "8 8", "1 2 0", "37 5", "0 0"),
    # no scans: nothing is written
    (POOL_TABLE, 3, 2, "", "", "", "2 0 0", "", ""),
    (POOL_TABLE, 3, 1, "", "9", "8 8", "1 0 0", "9", "8 8"),
    # entries behind the rows, whatever they are
    (POOL_TABLE + runs_of("1x65534"), 3, 2, "5", "9", "8", "2 0 1", "9", "1"),
    (KEEPER + DROPPER, 1, 0, "1 255", "9 9", "8 8", "0 2 0", "1 255", "0 0"),
    # tables that no rule has
    (KEEPER, 1, 0, "0 255 0", "9 9 9", "8 8 8", "0 3 0", "0 255 0", "0 0 0"),
    (DROPPER, 1, 0, "0 255 0", "9 9 9", "8 8 8", "0 0 3", "9 9 9", "1 1 1"),
    (SWITCH, 2, 0, "6 5 6 6 0 200", "9 9 9 9 9 9", "8 8 8 8 8 8", "0 4 2", "5 6 0 200 9 9", "1 0 0 1 0 0"),
    (SWITCH, 2, 1, "255 255 5", "9 9 9", "8 8 8", "1 2 1", "255 5 9", "0 1 0"),
    (SWITCH + KEEPER, 3, 2, "7 7", "9 9", "8 8", "0 1 1", "7 9", "0 1"),
    (LAST, 128, 0, "255 255 254", "9 9 9", "8 8 8", "127 2 1", "255 254 9", "0 1 0"),
    # over 128 equations: 255 is an equation as others are
    (runs_of("65536x0"), 129, 0, "5 255", "9 9", "8 8", "0 2 0", "5 255", "0 0"),
    (runs_of("65536x0"), 256, 255, "5 255", "9 9", "8 8", "0 2 0", "5 255", "0 0"),
    (COUNTED, 256, 0, "5 5 5 5 5 5 5 5", "9 9 9 9 9 9 9 9", "8 8 8 8 8 8 8 8", "255 8 0", "5 5 5 5 5 5 5 5", "0 0 0 0 0 0 0 0"),
    (COUNTED, 256, 127, "5 5 6 5 6", "9 9 9 9 9", "8 8 8 8 8", "250 5 0", "5 5 6 5 6", "0 0 0 0 0"),
    (LATER, 256, 127, "5 6 5 6 7 6", "9 9 9 9 9 9", "8 8 8 8 8 8", "254 3 3", "5 5 7 9 9 9", "0 1 0 1 0 1"),
    (LATER, 256, 255, "6 6", "9 9", "8 8", "255 0 2", "9 9", "1 1"),
    (LAST_OF_256, 256, 0, "255 255 254", "9 9 9", "8 8 8", "255 2 1", "255 254 9", "0 1 0"),
    (LAST_OF_256, 256, 255, "255 0", "9 9", "8 8", "255 1 1", "0 9", "1 0"),
    (LAST_OF_257, 257, 255, "255 255 7", "9 9 9", "8 8 8", "256 2 1", "255 7 9", "0 1 0"),
    (THROUGH_255, 257, 0, "7 0 0 5 0 0 0", "9 9 9 9 9 9 9", "8 8 8 8 8 8 8", "255 4 3", "7 0 5 0 9 9 9", "0 0 1 0 0 1 1"),
    (LAST_OF_1000, 1000, 0, "255 255 254", "9 9 9", "8 8 8", "999 2 1", "255 254 9", "0 1 0"),
    (LAST_OF_1000, 1000, 255, "255 255", "9 9", "8 8", "999 1 1", "255 9", "0 1"),
]

# A table, the count, the state, scans, the sizes of both buffers, and the number of the refusal.
REFUSED = [
    # 15: a buffer shorter than the scans
    (POOL_TABLE, 3, 2, "5 5", 1, 2, 15),
    (POOL_TABLE, 3, 2, "5 5", 2, 1, 15),
    (POOL_TABLE, 3, 1, "5 5", 0, 0, 15),
    (POOL_TABLE, 3, 0, "5", 0, 9, 15),
    (DROPPER, 1, 0, "5", 0, 1, 15),
    # 15 before 16
    (POOL_TABLE, 0, 0, "5", 0, 1, 15),
    (POOL_TABLE, 3, 3, "5 5", 2, 1, 15),
    (NO_TABLE, 3, 0, "5", 1, 0, 15),
    # 16: the count
    (POOL_TABLE, 0, 0, "5", 1, 1, 16),
    (NO_TABLE, 0, 0, "", 0, 0, 16),
    (POOL_TABLE, 2, 0, "5", 1, 1, 16),
    (POOL_TABLE, 4, 0, "5", 1, 1, 16),
    (runs_of("65536x0"), 257, 0, "5", 1, 1, 16),
    (runs_of("262144x0"), 1001, 0, "5", 1, 1, 16),
    (runs_of("262144x0"), 1024, 0, "5", 1, 1, 16),
    (KEEPER, 2**55, 0, "5", 1, 1, 16),
    (KEEPER, 2**55 + 1, 0, "5", 1, 1, 16),
    (KEEPER, 2**56, 0, "5", 1, 1, 16),
    (KEEPER, 2**56 + 1, 0, "5", 1, 1, 16),
    (KEEPER, 2**63, 0, "5", 1, 1, 16),
    # the state
    (POOL_TABLE, 3, 3, "5", 1, 1, 16),
    (KEEPER, 1, 1, "5", 1, 1, 16),
    (KEEPER + KEEPER, 1, 1, "5", 1, 1, 16),
    (LAST, 128, 128, "5", 1, 1, 16),
    (LAST_OF_256, 256, 256, "5", 1, 1, 16),
    (LAST_OF_1000, 1000, 1000, "5", 1, 1, 16),
    (LAST_OF_1000, 1000, 65535, "5", 1, 1, 16),
    (POOL_TABLE, 3, 2**56, "5", 1, 1, 16),
    # the table's length
    (NO_TABLE, 1, 0, "5", 1, 1, 16),
    (runs_of("255x0"), 1, 0, "5", 1, 1, 16),
    (runs_of("32767x127"), 128, 0, "5", 1, 1, 16),
    (runs_of("65535x255"), 256, 0, "5", 1, 1, 16),
    (runs_of("255999x999"), 1000, 0, "5", 1, 1, 16),
    # an entry: the first, the last, of a row that isn't reached, also with no scans
    (runs_of("1x1 255x0"), 1, 0, "5", 1, 1, 16),
    (runs_of("255x0 1x1"), 1, 0, "5", 1, 1, 16),
    (runs_of("255x0 1x254"), 1, 0, "5", 1, 1, 16),
    (runs_of("255x0 1x255"), 1, 0, "5", 1, 1, 16),
    (runs_of("255x0 1x256"), 1, 0, "5", 1, 1, 16),
    (runs_of("255x0 1x65534"), 1, 0, "5", 1, 1, 16),
    (runs_of("256x0 255x0 1x2"), 2, 0, "5", 1, 1, 16),
    (runs_of("256x0 255x0 1x512"), 2, 0, "5", 1, 1, 16),
    (runs_of("32767x127 1x128"), 128, 0, "5", 1, 1, 16),
    (runs_of("65279x254 1x255"), 255, 0, "5", 1, 1, 16),
    (runs_of("1x256 65535x255"), 256, 0, "5", 1, 1, 16),
    (runs_of("255999x999 1x1000"), 1000, 0, "5", 1, 1, 16),
    (runs_of("1x65534 255999x999"), 1000, 0, "5", 1, 1, 16),
    (runs_of("255x0 1x254"), 1, 0, "", 0, 0, 16),
    (POOL_TABLE, 3, 3, "", 0, 0, 16),
]


def sifted():
    """Each rule file with scans and the verdicts on them."""
    return [(bytes_of(text), bytes_of(scans), bytes_of(verdicts)) for text, scans, verdicts in SIFTED]


def runs():
    """The arguments of each run with the line of what it returns, and both buffers then."""
    typed = []
    for table, count, state, scans, output, verdicts, returned, *after in FIT:
        given = (table, count, state, bytes_of(scans), bytes_of(output), bytes_of(verdicts))
        typed.append((given, f"fit {returned}", *[bytes_of(text) for text in after]))
    for table, count, state, scans, output, verdicts, number in REFUSED:
        buffers = (b"\x09" * output, b"\x08" * verdicts)
        given = (table, count, state, bytes_of(scans), *buffers)
        typed.append((given, f"refused {number} at 0 {state} 0 0", *buffers))
    return typed
