"""Short tables, typed by hand: rules with the count of their equations before merging and the listing after it, and what short filling answers."""
import known_equations
import known_wide
from known import ANY, ONE, POOL, SIX, bytes_of, counted
from known_empty import BESIDE, NEVER_IN_ONE, NEVER_LATER, NEVER_MET, ROUND_AGAIN, counted_beside
from known_equations import BRANCHES, OVERLAPPING, PLACES, REQUESTS, ROUND, ROUND_TWICE, SEVEN, late
from known_wide import later

# "After any code" 63 times, and tt or ff.
CHAIN = ANY + "5 0 " * 63

# The hardest rule known, as bench/rules.h has it: a max of parts, most of them necessities of any code and an end.
HARD_PARTS = "4 " + "5 0 " * 8 + "2 4 " + "5 0 " * 3 + "7 0 4 " + "5 0 " * 7 + "2 " + ("4 " + "5 0 " * 6 + "7 0 ") * 2 + "4 " + "5 0 " * 5 + "2 "
HARD = ANY + "1 174 16 12 6 4 5 0 7 0 4 5 1 " + "5 0 " * 5 + "2 " + HARD_PARTS + "5 0 " * 4 + "2"

def wheel(length):
    """A wheel of so many places that each code turns by one. At all places but the first, code 5 is dropped."""
    return "6 5 0 " + "4 5 1 3 5 0 " * (length - 1) + "7 0 "


# Wheels of 3, 5 and 8 places: code 5 is kept once in 120 turns, and to tell two equations apart may take 118 codes before it.
WHEELS = ANY + ONE + "4 4 " + wheel(3) + wheel(5) + wheel(8)


def wheel_lines():
    """A ring of 120 equations, of which the first alone keeps code 5."""
    lines = ["patterns 2", "p 0 0 256", "p 1 5 1", "equations 120", "0 0 255 1"]
    for turn in range(1, 120):
        follows = (turn + 1) % 120
        lines += [f"{turn} 0 4 {follows}", f"{turn} 5 5 drop", f"{turn} 6 255 {follows}"]
    return lines


# Sixteen branches, the most for which there are nodes: after an issue of slot s, after a cancel of slot 5, ff.
SIXTEEN = "".join(f"1 1 {slot} {slot} " for slot in range(16)) + "1 2 5 5 " + "4 " * 15 + "".join(f"5 {slot} 5 16 3 " for slot in range(16))
SIXTEEN_PATTERNS = ["patterns 17"] + [f"p {slot} {slot} 1" for slot in range(16)] + ["p 16 37 1"]

# Eleven branches of ten slots, each one slot further than the one before: so no two of the slots 0 to 19 are in the same branches.
TWENTY = "".join(f"1 1 {slot} {slot + 9} " for slot in range(11)) + "1 2 5 5 " + "4 " * 10 + "".join(f"5 {part} 5 11 3 " for part in range(11))
TWENTY_PATTERNS = ["patterns 12"] + [f"p {slot} {slot} 10" for slot in range(11)] + ["p 11 37 1"]


def branch_lines(slots):
    """What is left of such branches: an issue of one of the slots, then no cancel of slot 5."""
    return ["equations 3", f"0 0 {slots - 1} 1", f"0 {slots} 255 2", "1 0 36 2", "1 37 37 drop", "1 38 255 2", "2 0 255 2"]


# Rules with so many equations before merging, and the listing of the short table.
LISTINGS = [
    # "after 5, after 6, ff" and "after 7, after 6, ff"
    (
        ONE + SIX + SEVEN + "4 5 0 5 1 3 5 2 5 1 3",
        4,
        ["patterns 3", "p 0 5 1", "p 1 6 1", "p 2 7 1", "equations 3"]
        + ["0 0 4 1", "0 5 5 2", "0 6 6 1", "0 7 7 2", "0 8 255 1"]
        + ["1 0 255 1"]
        + ["2 0 5 1", "2 6 6 drop", "2 7 255 1"],
    ),
    (
        PLACES,
        4,
        ["patterns 2", "p 0 5 1", "p 1 6 1", "equations 3"]
        + ["0 0 4 1", "0 5 6 2", "0 7 255 1"]
        + ["1 0 255 1"]
        + ["2 0 5 1", "2 6 6 drop", "2 7 255 1"],
    ),
    # "always no 6", written out twice in one max: equation 1 is like the first
    (
        ANY + SIX + "6 4 5 1 3 5 0 4 5 1 3 5 0 7 0",
        2,
        ["patterns 2", "p 0 0 256", "p 1 6 1", "equations 1", "0 0 5 0", "0 6 6 drop", "0 7 255 0"],
    ),
    # equations 1 and 2 drop every code, whatever would come after
    (
        ANY + SIX + "4 5 1 5 0 5 1 3 5 0 5 0 3",
        3,
        ["patterns 2", "p 0 0 256", "p 1 6 1", "equations 2", "0 0 255 1", "1 0 255 drop"],
    ),
    (SIXTEEN, 18, SIXTEEN_PATTERNS + branch_lines(16)),
    (TWENTY, 22, TWENTY_PATTERNS + branch_lines(20)),
    (CHAIN + "2", 64, ["patterns 1", "p 0 0 256", "equations 1", "0 0 255 0"]),
    (counted(7), 128, ["patterns 2", "p 0 0 256", "p 1 5 1", "equations 1", "0 0 255 0"]),
    (HARD, 127, ["patterns 2", "p 0 0 256", "p 1 32 145", "equations 1", "0 0 255 0"]),
    # necessities of an empty pattern: where only these tell two equations apart, both drop alike
    (NEVER_MET, 2, ["patterns 1", "p 0 none 0", "equations 1", "0 0 255 0"]),
    (NEVER_LATER, 3, ["patterns 2", "p 0 none 0", "p 1 5 1", "equations 1", "0 0 255 0"]),
    (
        NEVER_IN_ONE,
        4,
        ["patterns 3", "p 0 5 1", "p 1 6 1", "p 2 none 0", "equations 3"]
        + ["0 0 4 1", "0 5 6 2", "0 7 255 1"]
        + ["1 0 255 1"]
        + ["2 0 5 1", "2 6 6 drop", "2 7 255 1"],
    ),
    (WHEELS, 120, wheel_lines()),
]
LISTINGS += known_wide.SHORT_LISTINGS

# Rules of which no two equations drop alike: the listing is the one that known_equations.py has.
STAYING = [POOL, "2", ONE + "5 0 3", ROUND, ROUND_TWICE, BRANCHES, REQUESTS, OVERLAPPING + "4 5 0 5 1 3 5 1 3", CHAIN + "3"]
STAYING += [BESIDE, ROUND_AGAIN]

# What short filling answers with a table of so many entries: each equation that is left takes 256.
FILLINGS = [(counted(m), 256, "equations 1") for m in range(7)]
FILLINGS += [(counted(m), 255, "refused 10 at 0") for m in range(7)]
FILLINGS += [(counted(m, "3"), 256 * (m + 1), f"equations {m + 1}") for m in range(1, 7)]
FILLINGS += [(counted(m, "3"), 256 * (m + 1) - 1, "refused 10 at 0") for m in range(1, 7)]
FILLINGS += known_wide.SHORT_FILLINGS
FILLINGS += [
    (POOL, 768, "equations 3"),
    (POOL, 40000, "equations 3"),
    (POOL, 767, "refused 10 at 0"),
    (POOL, 0, "refused 10 at 0"),
    ("2", 256, "equations 1"),
    ("2", 255, "refused 10 at 0"),
    # less room than there would have to be before merging
    (PLACES, 768, "equations 3"),
    (PLACES, 1023, "equations 3"),
    (PLACES, 767, "refused 10 at 0"),
    (late(27), 256, "equations 1"),
    (late(27), 32767, "equations 1"),
    (late(27), 255, "refused 10 at 0"),
    (counted(7), 0, "refused 10 at 0"),
    (NEVER_MET, 256, "equations 1"),
    (NEVER_MET, 255, "refused 10 at 0"),
    (counted_beside(6), 256, "equations 1"),
    (later(7), 32768, "equations 128"),
    (later(7), 32767, "refused 10 at 0"),
    (late(28), 256, "equations 1"),
    (late(28), 255, "refused 10 at 0"),
    # each refusal of the file comes before the table
    ("", 0, "refused 1 at 0"),
    ("0", 1, "refused 2 at 0"),
    ("2 2", 0, "refused 3 at 1"),
    (ANY + "5 0 " * 64 + "2", 255, "refused 4 at 132"),
    ("1 1 6 32 2", 0, "refused 5 at 0"),
    (ONE + "5 1 2", 256, "refused 6 at 4"),
    ("6 7 0", 0, "refused 7 at 1"),
    ("3", 0, "refused 8 at 0"),
]


def listings():
    """Each file with the count before merging and the whole text of its short listing."""
    return [(bytes_of(text), before, "".join(line + "\n" for line in lines)) for text, before, lines in LISTINGS]


def staying():
    """Each file with the text of its listing, which both tables have."""
    texts = dict(known_equations.listings())
    return [(bytes_of(text), texts[bytes_of(text)]) for text in STAYING]


def fillings():
    """Each file with the size of a table and the answer."""
    return [(bytes_of(text), size, answer) for text, size, answer in FILLINGS]
