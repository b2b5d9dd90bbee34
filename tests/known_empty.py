"""Rules with an empty pattern, one that holds no code: their listings, equations, answers of filling, verdicts and violating lists, typed by hand from C-17."""
from known import ANY, EMPTY, ONE, SIX, counted

# "after none, ff".
NEVER_MET = EMPTY + "5 0 3"

# "after none, ff" and "after 5, ff": node 2 is an ff that no code meets, and node 4 one that 5 meets.
BESIDE = EMPTY + ONE + "4 5 0 3 5 1 3"

# The same with a longer formula after the empty pattern: the ff that 5 meets is node 7.
BESIDE_LONGER = EMPTY + ONE + "4 5 0 4 3 5 1 3 5 1 3"

# "after 5, after none, ff".
NEVER_LATER = EMPTY + ONE + "5 1 5 0 3"

# "after 5, after 6, ff" and "after 6, both: after none, ff, and after 6, ff".
NEVER_IN_ONE = ONE + SIX + EMPTY + "4 5 0 5 1 3 5 1 4 5 2 3 5 1 3"

# Max of all: "after 5, the variable", "after none, the variable" and "after 6, ff".
ROUND_AGAIN = EMPTY + ONE + SIX + "6 4 5 1 7 0 4 5 0 7 0 5 2 3"


def counted_beside(m):
    """The paper's second family beside "after none, tt", which the first equation alone has: so there is one equation more."""
    return counted(m).replace(ANY + ONE, ANY + ONE + EMPTY + "4 5 2 2 ")


def beside_lines(m):
    """Its listing, m over 0. The first equation goes on like that of counted(m), and those of counted(m) have numbers that are higher by one."""
    lines = ["patterns 3", "p 0 0 256", "p 1 5 1", "p 2 none 0", f"equations {2**m + 1}"]
    for k in range(2**m + 1):
        after = 2 * max(k - 1, 0) % 2**m
        lines += [f"{k} 0 4 {after + 1}", f"{k} 5 5 {after + 2}", f"{k} 6 255 {after + 1}"]
    return lines


LISTINGS = [
    (EMPTY + "2", ["patterns 1", "p 0 none 0", "equations 1", "0 0 255 0"]),
    # a member by which no code is met: one equation more than tt has
    (NEVER_MET, ["patterns 1", "p 0 none 0", "equations 2", "0 0 255 1", "1 0 255 1"]),
    (EMPTY + "5 0 2", ["patterns 1", "p 0 none 0", "equations 2", "0 0 255 1", "1 0 255 1"]),
    # the slots make no difference, also where they go round
    ("1 0 0 31 5 0 3", ["patterns 1", "p 0 none 0", "equations 2", "0 0 255 1", "1 0 255 1"]),
    ("1 0 31 0 5 0 3", ["patterns 1", "p 0 none 0", "equations 2", "0 0 255 1", "1 0 255 1"]),
    # a variable that an empty pattern alone guards
    (EMPTY + "6 5 0 7 0", ["patterns 1", "p 0 none 0", "equations 2", "0 0 255 1", "1 0 255 1"]),
    (
        BESIDE,
        ["patterns 2", "p 0 none 0", "p 1 5 1", "equations 2"]
        + ["0 0 4 1", "0 5 5 drop", "0 6 255 1"]
        + ["1 0 255 1"],
    ),
    (
        NEVER_LATER,
        ["patterns 2", "p 0 none 0", "p 1 5 1", "equations 3"]
        + ["0 0 4 1", "0 5 5 2", "0 6 255 1"]
        + ["1 0 255 1", "2 0 255 1"],
    ),
    (
        NEVER_IN_ONE,
        ["patterns 3", "p 0 5 1", "p 1 6 1", "p 2 none 0", "equations 4"]
        + ["0 0 4 1", "0 5 5 2", "0 6 6 3", "0 7 255 1"]
        + ["1 0 255 1"]
        + ["2 0 5 1", "2 6 6 drop", "2 7 255 1"]
        + ["3 0 5 1", "3 6 6 drop", "3 7 255 1"],
    ),
    (
        ROUND_AGAIN,
        ["patterns 3", "p 0 none 0", "p 1 5 1", "p 2 6 1", "equations 2"]
        + ["0 0 4 1", "0 5 5 0", "0 6 6 drop", "0 7 255 1"]
        + ["1 0 255 1"],
    ),
    # ff beside the necessity isn't after it
    (EMPTY + "4 5 0 3 3", ["refused 8 at 0"]),
    ("1 0 5 32 2", ["refused 5 at 0"]),
]

# A rule and its equations in order, each as the numbers of its nodes.
SETS = [
    (EMPTY + "2", [set()]),
    (NEVER_MET, [{0}, set()]),
    (EMPTY + "6 5 0 7 0", [{1}, set()]),
    (BESIDE, [{1, 3}, set()]),
    (NEVER_LATER, [{0}, set(), {1}]),
    (ROUND_AGAIN, [{2, 5, 7}, set()]),
]

# What filling answers with a table of so many entries.
FILLINGS = [
    (EMPTY + "2", 256, "equations 1"),
    (NEVER_MET, 512, "equations 2"),
    (NEVER_MET, 511, "refused 10 at 0"),
    (NEVER_MET, 256, "refused 10 at 0"),
    (counted_beside(6), 16640, "equations 65"),
    (counted_beside(6), 16639, "refused 10 at 0"),
    ("1 0 32 5 2", 0, "refused 5 at 0"),
]

# A rule, scans, and the verdict on each: 0 kept, 1 dropped.
VERDICTS = [
    (NEVER_MET, "5 0 255 5 160 5", "0 0 0 0 0 0"),
    (BESIDE, "5 5 0 5", "1 1 0 0"),
    (BESIDE_LONGER, "5 5 0 5", "1 1 0 0"),
    (NEVER_LATER, "5 5 0 5", "0 0 0 0"),
    (NEVER_IN_ONE, "6 6 5 6", "0 1 0 0"),
    (ROUND_AGAIN, "5 6 5 6 7 6", "0 1 0 1 0 0"),
]

# A rule and lists of codes that violate it, and lists that don't.
VIOLATIONS = [
    (NEVER_MET, [], ["", "5", "0", "255", "5 5"]),
    (BESIDE, ["5", "5 0"], ["", "0", "0 5"]),
    (NEVER_LATER, [], ["5", "5 5", "5 0 5"]),
    (NEVER_IN_ONE, ["6 6", "5 6"], ["6", "6 5 6", "5 5"]),
    (ROUND_AGAIN, ["6", "5 5 6"], ["", "5 5", "7 6"]),
]
