"""Rules of over 128 equations: their listings and what filling answers, long and short, typed by hand. 1,000 is the most that there may be."""
from known import ANY, ONE, SIX, counted
from known_empty import beside_lines, counted_beside

# The largest table that the test programs have: 1,024 rows.
SPACE = 262144

# A max of eight parts with 1,000 equations, of which 9 are left in the short table, and one of nine parts, without ff, with 1,001. A search found
# them. So of these the counts alone are typed, as they came with the request for wider entries.
WIDEST = (
    "1 255 0 31 1 2 26 28 1 13 7 26 6 4 5 0 7 0 4 5 0 5 0 5 0 5 0 2 4 5 0 7 0 4 5 0 5 0 5 0 5 0 2 "
    "4 5 1 5 1 5 1 5 0 5 2 5 2 5 1 5 2 5 0 5 2 5 1 5 2 5 2 7 0 4 5 1 5 0 5 0 5 2 5 0 5 0 5 0 5 0 5 0 5 0 5 0 5 0 2 "
    "4 5 2 5 0 5 0 5 0 2 5 2 5 1 5 0 5 1 5 1 5 2 3"
)
TOO_WIDE = (
    "1 255 0 31 1 11 7 16 1 207 4 23 6 4 5 0 7 0 4 5 1 5 0 2 4 5 1 5 0 5 0 5 0 5 0 5 0 5 0 5 0 5 0 7 0 "
    "4 5 1 5 0 5 0 5 0 5 0 5 0 5 0 5 1 5 1 5 1 7 0 4 5 2 5 0 5 0 2 4 5 0 5 1 5 0 5 0 2 4 5 0 5 0 5 0 7 0 "
    "4 5 0 5 2 5 2 5 1 5 2 5 1 5 1 5 2 5 2 7 0 5 2 5 0 5 0 7 0"
)


def registers(n):
    """A rule of 972 + n equations, no two of which drop alike. After n codes: 5 is never the seventh code after one of kinds 0 to 3, and 6 never the
    fifth after one of kinds 0 and 1. So each of the last five codes is of kinds 0 and 1, 2 and 3, or others, and each of the two before them of kinds
    0 to 3 or not: 3^5 × 2^2 ways."""
    return ANY + "1 15 0 31 1 3 0 31 " + ONE + SIX + "5 0 " * n + "6 4 5 0 7 0 4 5 1 " + "5 0 " * 6 + "5 3 3 5 2 " + "5 0 " * 4 + "5 4 3"


def later(m):
    """A rule of 2^m equations, no two of which drop alike: 6 is never the m-th code after 5."""
    return ANY + ONE + SIX + "6 4 5 0 7 0 5 1 " + "5 0 " * (m - 1) + "5 2 3"


def counted_lines(m):
    """The listing of counted(m), m over 0. Bit i of an equation's number says whether the code i before the last was 5:
    so code 5 leads from equation k to 2 × k + 1 and any other to 2 × k, modulo 2^m."""
    lines = ["patterns 2", "p 0 0 256", "p 1 5 1", f"equations {2**m}"]
    for k in range(2**m):
        other, five = 2 * k % 2**m, (2 * k + 1) % 2**m
        lines += [f"{k} 0 4 {other}", f"{k} 5 5 {five}", f"{k} 6 255 {other}"]
    return lines


def later_lines(m):
    """As counted_lines has it; and equations from 2^(m - 1) on, in which a 5 came m codes ago, drop code 6."""
    lines = ["patterns 3", "p 0 0 256", "p 1 5 1", "p 2 6 1", f"equations {2**m}"]
    for k in range(2**m):
        other, five = 2 * k % 2**m, (2 * k + 1) % 2**m
        lines += [f"{k} 0 4 {other}", f"{k} 5 5 {five}"]
        lines += [f"{k} 6 255 {other}"] if 2 * k < 2**m else [f"{k} 6 6 drop", f"{k} 7 255 {other}"]
    return lines


def first_lines(m):
    """The short listing of counted(m) with ff at its end: the first 5 is what counts, and m codes later everything is dropped."""
    lines = ["patterns 2", "p 0 0 256", "p 1 5 1", f"equations {m + 1}", "0 0 4 0", "0 5 5 1", "0 6 255 0"]
    return lines + [f"{k} 0 255 {k + 1}" for k in range(1, m)] + [f"{m} 0 255 drop"]


# Equation 255 drops 6 and goes by any other code but 5 to 254; it comes from 127 by 5, and from itself.
LISTINGS = [(later(8), later_lines(8)), (later(9), later_lines(9))]
LISTINGS += [(counted(m), counted_lines(m)) for m in (8, 9)]
LISTINGS += [(counted_beside(m), beside_lines(m)) for m in (7, 8)]
LISTINGS += [(rule, ["refused 9 at 0"]) for rule in (counted(10), later(10), TOO_WIDE, registers(29))]

# What filling answers with a table of so many entries.
FITTING = [(counted(m, end), 2**m) for m in (7, 8, 9) for end in ("2", "3")]
FITTING += [(counted_beside(7), 129), (counted_beside(8), 257), (later(8), 256), (later(9), 512)]
FITTING += [(registers(27), 999), (registers(28), 1000), (WIDEST, 1000)]
FILLINGS = [(rule, 256 * count, f"equations {count}") for rule, count in FITTING]
FILLINGS += [(rule, 256 * count - 1, "refused 10 at 0") for rule, count in FITTING]
FILLINGS += [(WIDEST, size, "equations 1000") for size in (256001, SPACE)]
FILLINGS += [(WIDEST, size, "refused 10 at 0") for size in (0, 2304, 32768)]
# 1,001 equations and 1,024, also where there would be room for them
FILLINGS += [(rule, size, "refused 9 at 0") for rule in (TOO_WIDE, registers(29), counted(10)) for size in (0, 255999, 256000, 256256, SPACE)]

# Rules with so many equations before merging, and the short listing.
SHORT_LISTINGS = [(counted(m, "3"), 2**m, first_lines(m)) for m in (7, 8, 9)]
SHORT_LISTINGS += [(counted(m), 2**m, ["patterns 2", "p 0 0 256", "p 1 5 1", "equations 1", "0 0 255 0"]) for m in (8, 9)]
SHORT_LISTINGS += [(later(m), 2**m, later_lines(m)) for m in (7, 8, 9)]

# What short filling answers.
SHORT_FITTING = [(counted(m), 1) for m in (7, 8, 9)] + [(counted(m, "3"), m + 1) for m in (7, 8, 9)]
SHORT_FITTING += [(counted_beside(7), 1), (later(8), 256), (later(9), 512), (WIDEST, 9), (registers(27), 999), (registers(28), 1000)]
SHORT_FILLINGS = [(rule, 256 * count, f"equations {count}") for rule, count in SHORT_FITTING]
SHORT_FILLINGS += [(rule, 256 * count - 1, "refused 10 at 0") for rule, count in SHORT_FITTING]
SHORT_FILLINGS += [(WIDEST, size, "equations 9") for size in (255999, 256000, SPACE)]
SHORT_FILLINGS += [(rule, size, "refused 9 at 0") for rule in (TOO_WIDE, registers(29), counted(10), counted(10, "3")) for size in (0, 256, 256000, SPACE)]

# Limits, and what counting within them answers on a rule of so many equations: 9 where there are more.
LIMITS = [0, 1, 32, 127, 128, 129, 255, 256, 999, 1000, 1001, 2**63, 2**64 - 1]
WITHIN = [("2", 1), (counted(5), 32), (counted(7), 128), (counted_beside(7), 129), (counted(8), 256), (registers(28), 1000), (WIDEST, 1000)]
WITHIN += [(registers(29), 1001), (TOO_WIDE, 1001), (counted(10), 1024), (later(10), 1024), (counted(11), 2048)]


def answer_within(limit, count):
    """A limit over 1,000 counts as 1,000."""
    return f"equations {count}" if count <= limit and count <= 1000 else "refused 9 at 0"
