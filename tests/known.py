"""Rule files whose answers were typed from the paper, by hand: its small files, two faults in one file, and guards."""

ONE = "1 1 5 5 "
SIX = "1 1 6 6 "
FULL = ONE * 32
ANY = "1 255 0 31 "
EMPTY = "1 0 5 5 "
ANY_LINE = "accepted p 255 0 31 0 256 32640"


def counted(m, end="2"):
    """The paper's second family: a rule that remembers for m scans whether code 5 came, and then ends with tt, or as is said."""
    return ANY + ONE + "6 4 5 0 7 0 5 1 " + "5 0 " * m + end


def counted_line(m):
    nodes = " n 6 0 n 4 4 n 5 0 n 7 0 n 5 1" + " n 5 0" * m + " n 2 0"
    return ANY_LINE + " p 1 5 5 5 1 5" + nodes


POOL = "1 2 5 5 1 1 5 5 1 16 0 31 6 5 0 4 5 1 3 5 2 7 0"
POOL_LINE = (
    "accepted p 2 5 5 37 1 37 p 1 5 5 5 1 5 p 16 0 31 128 32 4592"
    " n 6 0 n 5 0 n 4 5 n 5 1 n 3 0 n 5 2 n 7 0"
)

# The paper's small files, as reading answers them: 8 and 9 come after reading.
SMALL = [
    ("", "refused 1 at 0"),
    ("2", "accepted n 2 0"),
    ("3", "accepted n 3 0"),
    ("2 2", "refused 3 at 1"),
    ("0", "refused 2 at 0"),
    ("7 0", "refused 6 at 0"),
    ("6 7 0", "refused 7 at 1"),
    ("5 0 2", "refused 6 at 0"),
    ("1 1 5 5", "refused 1 at 4"),
    # C-12: first over last, all 32 slots
    ("1 1 6 5 2", "accepted p 1 6 5 0 32 496 n 2 0"),
    ("1 1 31 31 2", "accepted p 1 31 31 31 1 31 n 2 0"),
    (POOL, POOL_LINE),
    (ANY + "5 0 " * 63 + "2", ANY_LINE + " n 5 0" * 63 + " n 2 0"),
    (ANY + "5 0 " * 64 + "2", "refused 4 at 132"),
    (counted(7), counted_line(7)),
    (counted(8), counted_line(8)),
]

# Slots that go round: from first to 31, then from 0 to last. The lowest code has slot 0.
ROUND = [
    ("1 1 30 2 2", "accepted p 1 30 2 0 5 64 n 2 0"),
    ("1 1 31 0 2", "accepted p 1 31 0 0 2 31 n 2 0"),
    ("1 1 1 0 2", "accepted p 1 1 0 0 32 496 n 2 0"),
    ("1 1 31 30 2", "accepted p 1 31 30 0 32 496 n 2 0"),
    ("1 1 0 31 2", "accepted p 1 0 31 0 32 496 n 2 0"),
    ("1 1 2 30 2", "accepted p 1 2 30 2 29 464 n 2 0"),
    ("1 10 30 2 2", "accepted p 10 30 2 32 10 768 n 2 0"),
    ("1 128 20 19 2", "accepted p 128 20 19 224 32 7664 n 2 0"),
    ("1 255 17 16 2", "accepted p 255 17 16 0 256 32640 n 2 0"),
    # what is left of refusal 5
    ("1 1 32 2 2", "refused 5 at 0"),
    ("1 1 255 0 2", "refused 5 at 0"),
    ("1 1 30 32 2", "refused 5 at 0"),
    (ONE + "1 1 33 32 2", "refused 5 at 4"),
]

# C-17: a mask of 0 is a pattern without a lowest code, with its slots as they are written.
NO_CODE = [
    (EMPTY + "2", "accepted p 0 5 5 none 0 0 n 2 0"),
    ("1 0 0 0 2", "accepted p 0 0 0 none 0 0 n 2 0"),
    ("1 0 0 31 2", "accepted p 0 0 31 none 0 0 n 2 0"),
    ("1 0 31 31 3", "accepted p 0 31 31 none 0 0 n 3 0"),
    # slots that go round
    ("1 0 30 2 2", "accepted p 0 30 2 none 0 0 n 2 0"),
    ("1 0 31 0 2", "accepted p 0 31 0 none 0 0 n 2 0"),
    # among others, first and last of all
    (ONE + EMPTY + "1 128 31 31 2", "accepted p 1 5 5 5 1 5 p 0 5 5 none 0 0 p 128 31 31 255 1 255 n 2 0"),
    (EMPTY + ONE + "1 0 7 6 2", "accepted p 0 5 5 none 0 0 p 1 5 5 5 1 5 p 0 7 6 none 0 0 n 2 0"),
    # as many as there may be, and one more
    (EMPTY * 32 + "2", "accepted" + " p 0 5 5 none 0 0" * 32 + " n 2 0"),
    (EMPTY * 32 + "1 0 5 5", "refused 4 at 128"),
    (FULL + "1 0 5 5", "refused 4 at 128"),
    # slots over 31: first, last or both
    ("1 0 32 5 2", "refused 5 at 0"),
    ("1 0 5 32 2", "refused 5 at 0"),
    ("1 0 255 255 2", "refused 5 at 0"),
    ("1 0 0 128 9", "refused 5 at 0"),
    (ONE + "1 0 33 32 2", "refused 5 at 4"),
    (EMPTY + "1 1 5 32 2", "refused 5 at 4"),
    # cut short, and without a formula
    ("1 0", "refused 1 at 2"),
    ("1 0 5", "refused 1 at 3"),
    ("1 0 5 5", "refused 1 at 4"),
    # what comes after it is still looked at
    (EMPTY + "9", "refused 2 at 4"),
    (EMPTY + "1 1 5", "refused 1 at 7"),
    (EMPTY + "5 0", "refused 1 at 6"),
    (EMPTY + "5 0 9", "refused 2 at 6"),
    (EMPTY + "5 0 7 0", "refused 6 at 6"),
    (EMPTY + "5 1 2", "refused 6 at 4"),
    (EMPTY + "5 0 2 2", "refused 3 at 7"),
    (EMPTY + "5 0 " * 64 + "2", "refused 4 at 132"),
    # once the formula has begun
    ("2 1 0 5 5", "refused 3 at 1"),
    ("4 2 1 0 5 5", "refused 3 at 2"),
]

# Two faults at one record: the one that stands first in the paper's table.
AT_ONE_RECORD = [
    # bytes after the whole formula: before every other fault
    ("2 0", "refused 3 at 1"),
    ("2 8", "refused 3 at 1"),
    ("2 1 1 5 5", "refused 3 at 1"),
    ("2 1 1 5 32", "refused 3 at 1"),
    ("2 5", "refused 3 at 1"),
    ("2 7 0", "refused 3 at 1"),
    ("6 2 7 0", "refused 3 at 2"),
    ("4 2 2 8", "refused 3 at 3"),
    ("6 " * 63 + "2 2", "refused 3 at 64"),
    ("6 " * 63 + "2 8", "refused 3 at 64"),
    ("6 " * 63 + "2 1", "refused 3 at 64"),
    # a kind that is not 1 to 7: before the limits
    (FULL + "0", "refused 2 at 128"),
    (FULL + "8", "refused 2 at 128"),
    ("6 " * 64 + "0", "refused 2 at 64"),
    ("6 " * 64 + "8", "refused 2 at 64"),
    (FULL + "5 31 " * 64 + "255", "refused 2 at 256"),
    # a pattern once the formula has begun: before the limits, its length and its body
    (FULL + "6 " + ONE, "refused 3 at 129"),
    ("6 " * 64 + ONE, "refused 3 at 64"),
    (FULL + "5 31 " * 64 + ONE, "refused 3 at 256"),
    ("6 1", "refused 3 at 1"),
    ("6 1 1 5", "refused 3 at 1"),
    ("4 2 1 1 5 32", "refused 3 at 2"),
    ("6 1 1 32 5", "refused 3 at 1"),
    # a limit: before the record's length and its body
    (FULL + "1", "refused 4 at 128"),
    (FULL + "1 1 5", "refused 4 at 128"),
    (FULL + "1 1 32 5", "refused 4 at 128"),
    (FULL + "1 1 5 32", "refused 4 at 128"),
    ("6 " * 64 + "5", "refused 4 at 64"),
    ("6 " * 64 + "7", "refused 4 at 64"),
    ("6 " * 64 + "5 0", "refused 4 at 64"),
    ("6 " * 64 + "7 0", "refused 4 at 64"),
    ("6 " * 64 + "7 255", "refused 4 at 64"),
    # a body cut short: before what the body says
    ("1 1 32", "refused 1 at 3"),
    ("1 0 32", "refused 1 at 3"),
    ("5", "refused 1 at 1"),
    ("7", "refused 1 at 1"),
    ("6 7", "refused 1 at 2"),
    (ONE + "5", "refused 1 at 5"),
    # no such max: before no guard
    ("6 7 1", "refused 6 at 1"),
    ("6 6 7 2", "refused 6 at 2"),
    ("6 7 255", "refused 6 at 1"),
]

# Two faults at two records: the left one.
AT_TWO_RECORDS = [
    ("1 1 5 32 9", "refused 5 at 0"),
    ("1 1 5 32 1 1 32 5 2", "refused 5 at 0"),
    ("1 1 32 5 1 1 5", "refused 5 at 0"),
    (ONE + "1 1 32 32", "refused 5 at 4"),
    (ONE * 31 + "1 1 5 32 " + ONE, "refused 5 at 124"),
    ("5 0", "refused 6 at 0"),
    ("5 0 9", "refused 6 at 0"),
    ("5 0 " + ONE, "refused 6 at 0"),
    ("6 5 0 7 1", "refused 6 at 1"),
    (ONE + "5 1 5 0 7 0", "refused 6 at 4"),
    (ONE + "6 5 0 5 1 6 7 0", "refused 6 at 7"),
    ("4 7 0 9", "refused 6 at 1"),
    ("4 0 7 0", "refused 2 at 1"),
    ("6 4 7 0", "refused 7 at 2"),
    ("6 4 7 0 9", "refused 7 at 2"),
    ("6 4 2 7 0 2", "refused 7 at 3"),
    ("6 7 0 2", "refused 7 at 1"),
    ("6 4 7 1 7 0", "refused 6 at 2"),
    ("6 " * 63 + "7 0 2", "refused 7 at 63"),
    (FULL + "5 32 " + "5 0 " * 64, "refused 6 at 128"),
]

# Which necessity guards which max: one between the max and its variable.
GUARDS = [
    (ONE + "6 5 0 7 0", "accepted p 1 5 5 5 1 5 n 6 0 n 5 0 n 7 0"),
    (ONE + "5 0 6 7 0", "refused 7 at 7"),
    (ONE + "6 5 0 6 7 0", "refused 7 at 8"),
    (ONE + "6 5 0 6 7 1", "accepted p 1 5 5 5 1 5 n 6 0 n 5 0 n 6 0 n 7 0"),
    (ONE + "6 5 0 6 7 2", "refused 6 at 8"),
    (ONE + "6 4 5 0 7 0 7 0", "refused 7 at 10"),
    (ONE + "6 4 6 2 5 0 7 0", "accepted p 1 5 5 5 1 5 n 6 0 n 4 4 n 6 0 n 2 0 n 5 0 n 7 0"),
    (ONE + "6 4 6 2 5 0 7 1", "refused 6 at 10"),
    # a necessity guards every max around it, not the innermost alone
    (ONE + "6 6 5 0 7 0", "accepted p 1 5 5 5 1 5 n 6 0 n 6 0 n 5 0 n 7 1"),
    (ONE + "6 6 5 0 7 1", "accepted p 1 5 5 5 1 5 n 6 0 n 6 0 n 5 0 n 7 0"),
    # no necessity at all: each of the 63 maxes that fit above a variable is unguarded
    ("6 " * 63 + "7 62", "refused 7 at 63"),
    ("6 " * 63 + "7 63", "refused 6 at 63"),
]

# A necessity guards whatever its pattern covers.
EMPTY_LINE = "accepted p 0 5 5 none 0 0"
EMPTY_GUARDS = [
    (EMPTY + "6 5 0 7 0", EMPTY_LINE + " n 6 0 n 5 0 n 7 0"),
    (EMPTY + "6 6 5 0 7 1", EMPTY_LINE + " n 6 0 n 6 0 n 5 0 n 7 0"),
    (EMPTY + "5 0 6 7 0", "refused 7 at 7"),
    (EMPTY + "6 5 0 6 7 0", "refused 7 at 8"),
    (EMPTY + "6 4 5 0 7 0 7 0", "refused 7 at 10"),
]


def bytes_of(text):
    return bytes(int(number) for number in text.split())


def answers():
    """Each file with the line that answers it."""
    typed = SMALL + ROUND + NO_CODE + AT_ONE_RECORD + AT_TWO_RECORDS + GUARDS + EMPTY_GUARDS
    return [(bytes_of(text), line) for text, line in typed]
