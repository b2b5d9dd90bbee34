"""Listings of rules, answers of filling, verdicts and violating lists, typed from the paper and its change requests, by hand."""
import known_empty
import known_wide
from known import ANY, FULL, ONE, POOL, SIX, bytes_of, counted
from known_wide import counted_lines

SEVEN = "1 1 7 7 "
OVERLAPPING = "1 3 0 9 1 6 5 31 "

# "after an issue of slots 30 to 2, ff", and "after an issue of 30 to 2, after one of 2 to 30, ff".
ROUND = "1 1 30 2 5 0 3"
ROUND_TWICE = "1 1 30 2 1 1 2 30 5 0 5 1 3"

# Two branches for 5: "after 5, after 6, ff" and "after 5, after 7, ff".
BRANCHES = ONE + SIX + SEVEN + "4 5 0 5 1 3 5 0 5 2 3"

# "after 5, after 6, ff" and "after 6, after 6, ff": "after 6, ff" stands at two places.
PLACES = ONE + SIX + "4 5 0 5 1 3 5 1 5 1 3"

# Example 10 of the article on suppressions, with code 5 for a request and code 101, deliver 5, for its answer: max of
# both "after a request, after an answer, the variable" and "after a request, after a request, ff".
REQUESTS = ONE + "1 8 5 5 6 4 5 0 5 1 7 0 5 0 5 0 3"


# A file that its 257th byte settles, longer than the 4,096 bytes that the program `equations` reads.
LONG = FULL + "5 31 " * 64 + "255 " + "0 " * 5000

# The listings, line by line. The program `equations` prints those of up to 128 equations.
LISTINGS = [(counted(m), counted_lines(m)) for m in (1, 2, 7)]
LISTINGS += [
    (
        POOL,
        ["patterns 3", "p 0 37 1", "p 1 5 1", "p 2 128 32", "equations 3"]
        + ["0 0 36 1", "0 37 37 2", "0 38 255 1"]
        + ["1 0 255 1"]
        + ["2 0 4 1", "2 5 5 drop", "2 6 127 1", "2 128 159 0", "2 160 255 1"],
    ),
    ("2", ["patterns 0", "equations 1", "0 0 255 0"]),
    ("1 1 31 31 2", ["patterns 1", "p 0 31 1", "equations 1", "0 0 255 0"]),
    # "after 5, ff"
    (ONE + "5 0 3", ["patterns 1", "p 0 5 1", "equations 2", "0 0 4 1", "0 5 5 drop", "0 6 255 1", "1 0 255 1"]),
    (
        ROUND,
        ["patterns 1", "p 0 0 5", "equations 2"]
        + ["0 0 2 drop", "0 3 29 1", "0 30 31 drop", "0 32 255 1"]
        + ["1 0 255 1"],
    ),
    (
        ROUND_TWICE,
        ["patterns 2", "p 0 0 5", "p 1 2 29", "equations 3"]
        + ["0 0 2 1", "0 3 29 2", "0 30 31 1", "0 32 255 2"]
        + ["1 0 1 2", "1 2 30 drop", "1 31 255 2"]
        + ["2 0 255 2"],
    ),
    (
        BRANCHES,
        ["patterns 3", "p 0 5 1", "p 1 6 1", "p 2 7 1", "equations 3"]
        + ["0 0 4 1", "0 5 5 2", "0 6 255 1"]
        + ["1 0 255 1"]
        + ["2 0 5 1", "2 6 7 drop", "2 8 255 1"],
    ),
    (
        REQUESTS,
        ["patterns 2", "p 0 5 1", "p 1 101 1", "equations 3"]
        + ["0 0 4 1", "0 5 5 2", "0 6 255 1"]
        + ["1 0 255 1"]
        + ["2 0 4 1", "2 5 5 drop", "2 6 100 1", "2 101 101 0", "2 102 255 1"],
    ),
    # patterns that overlap: where one of two branches gives ff, the code is dropped
    (
        OVERLAPPING + "4 5 0 5 1 3 5 1 3",
        ["patterns 2", "p 0 0 20", "p 1 37 54", "equations 3"]
        + ["0 0 9 1", "0 10 31 2", "0 32 36 1", "0 37 63 drop", "0 64 68 2", "0 69 95 drop", "0 96 255 2"]
        + ["1 0 36 2", "1 37 63 drop", "1 64 68 2", "1 69 95 drop", "1 96 255 2"]
        + ["2 0 255 2"],
    ),
    # max of both "after 5, the variable" and "after 6, ff"
    (
        ONE + SIX + "6 4 5 0 7 0 5 1 3",
        ["patterns 2", "p 0 5 1", "p 1 6 1", "equations 2"]
        + ["0 0 4 1", "0 5 5 0", "0 6 6 drop", "0 7 255 1"]
        + ["1 0 255 1"],
    ),
    # max of "after 5, max of both: after 6, the outer variable, and after 7, the inner one"
    (
        ONE + SIX + SEVEN + "6 5 0 6 4 5 1 7 1 5 2 7 0",
        ["patterns 3", "p 0 5 1", "p 1 6 1", "p 2 7 1", "equations 3"]
        + ["0 0 4 1", "0 5 5 2", "0 6 255 1"]
        + ["1 0 255 1"]
        + ["2 0 5 1", "2 6 6 0", "2 7 7 2", "2 8 255 1"],
    ),
    # numbered by ascending codes and not by nodes: "after 6, after 5, tt" comes first
    (
        ONE + SIX + "4 5 1 5 0 2 5 0 5 1 2",
        ["patterns 2", "p 0 5 1", "p 1 6 1", "equations 4"]
        + ["0 0 4 1", "0 5 5 2", "0 6 6 3", "0 7 255 1"]
        + ["1 0 255 1", "2 0 255 1", "3 0 255 1"],
    ),
    # the turn of 2 comes before that of 3, so what it finds has the lower number
    (
        ONE + SIX + SEVEN + "4 5 0 5 2 5 0 2 5 1 5 2 5 1 2",
        ["patterns 3", "p 0 5 1", "p 1 6 1", "p 2 7 1", "equations 6"]
        + ["0 0 4 1", "0 5 5 2", "0 6 6 3", "0 7 255 1"]
        + ["1 0 255 1"]
        + ["2 0 6 1", "2 7 7 4", "2 8 255 1"]
        + ["3 0 6 1", "3 7 7 5", "3 8 255 1"]
        + ["4 0 255 1", "5 0 255 1"],
    ),
    # two nodes, and so two equations
    (
        PLACES,
        ["patterns 2", "p 0 5 1", "p 1 6 1", "equations 4"]
        + ["0 0 4 1", "0 5 5 2", "0 6 6 3", "0 7 255 1"]
        + ["1 0 255 1"]
        + ["2 0 5 1", "2 6 6 drop", "2 7 255 1"]
        + ["3 0 5 1", "3 6 6 drop", "3 7 255 1"],
    ),
    # node 63 is ff: the last of the equations drops every code, and none is the empty set
    (
        ANY + "5 0 " * 63 + "3",
        ["patterns 1", "p 0 0 256", "equations 63"]
        + [f"{number} 0 255 {number + 1}" for number in range(62)]
        + ["62 0 255 drop"],
    ),
    ("", ["refused 1 at 0"]),
    ("0", ["refused 2 at 0"]),
    ("2 2", ["refused 3 at 1"]),
    (LONG, ["refused 2 at 256"]),
    (ANY + "5 0 " * 64 + "2", ["refused 4 at 132"]),
    ("1 1 6 5 2", ["patterns 1", "p 0 0 32", "equations 1", "0 0 255 0"]),
    ("1 1 6 32 2", ["refused 5 at 0"]),
    ("5 0 2", ["refused 6 at 0"]),
    ("7 0", ["refused 6 at 0"]),
    ("6 7 0", ["refused 7 at 1"]),
    ("1 1 5 5", ["refused 1 at 4"]),
    # opening node 0 gives ff: at once, in a part, below maxes. Reading comes first
    ("3", ["refused 8 at 0"]),
    ("4 2 3", ["refused 8 at 0"]),
    (ONE + "4 3 5 0 2", ["refused 8 at 0"]),
    (ONE + "6 4 5 0 7 0 6 3", ["refused 8 at 0"]),
    ("3 3", ["refused 3 at 1"]),
    ("4 3 7 0", ["refused 6 at 2"]),
    # both 8 and 9 apply, in the programs and at the desk: 8 comes first
    (ANY + ONE + "4 3 6 4 5 0 7 0 5 1 " + "5 0 " * 8 + "2", ["refused 8 at 0"]),
    (ANY + ONE + "4 3 6 4 5 0 7 0 5 1 " + "5 0 " * 10 + "2", ["refused 8 at 0"]),
]


# A rule and its equations in order, each as the numbers of its nodes.
SETS = [(POOL, [{1}, set(), {3, 5}]), (BRANCHES, [{1, 4}, set(), {2, 5}]), (REQUESTS, [{2, 5}, set(), {3, 6}])]


def late(n, firsts=(1, 2, 3), seconds=(1, 2)):
    """A rule of 101 + n equations, n over 4, the last of which are found one by one: n necessities of any code, and
    beside them parts that end after five codes. They tell which of three patterns cover the first code, in 8 ways,
    and which of two cover the second, in 4. So there are 1, 8, 32, 32 and 32 equations for 0 to 4 codes, then one
    for each necessity of any code that is left, and the empty set. With fewer of the patterns there are fewer ways."""
    by_first = "".join(f"5 {number} " + "5 0 " * 4 + "2 " for number in firsts)
    by_second = "".join(f"5 0 5 {number} " + "5 0 " * 3 + "2 " for number in seconds)
    boths = "4 " * (len(firsts) + len(seconds))
    return ANY + "1 15 0 31 1 51 0 31 1 85 0 31 " + boths + by_first + by_second + "5 0 " * n + "2"


# What filling answers with a table of so many entries: each equation takes 256.
FILLINGS = [(ANY + "5 0 " * n + "2", 256 * (n + 1), f"equations {n + 1}") for n in (1, 2, 63)]
FILLINGS += [(counted(m), 256 * 2**m, f"equations {2**m}") for m in range(8)]
FILLINGS += [(counted(m), 256 * 2**m - 1, "refused 10 at 0") for m in range(8)]
FILLINGS += [
    (late(26), 32512, "equations 127"),
    (late(26), 32511, "refused 10 at 0"),
    (late(27), 32768, "equations 128"),
    (late(27), 32767, "refused 10 at 0"),
    (late(28), 33024, "equations 129"),
    (late(28), 33023, "refused 10 at 0"),
    (POOL, 768, "equations 3"),
    (POOL, 769, "equations 3"),
    (POOL, 32767, "equations 3"),
    (POOL, 40000, "equations 3"),
    (POOL, 767, "refused 10 at 0"),
    (POOL, 512, "refused 10 at 0"),
    (POOL, 0, "refused 10 at 0"),
    ("2", 256, "equations 1"),
    ("2", 255, "refused 10 at 0"),
    ("2", 0, "refused 10 at 0"),
    # the short rows would fit
    (PLACES, 1024, "equations 4"),
    (PLACES, 1023, "refused 10 at 0"),
    (PLACES, 768, "refused 10 at 0"),
    (counted(7), 256, "refused 10 at 0"),
    # a table that is too small for a file that is refused: the file comes first
    ("", 0, "refused 1 at 0"),
    ("0", 0, "refused 2 at 0"),
    ("2 2", 255, "refused 3 at 1"),
    (ANY + "5 0 " * 64 + "2", 256, "refused 4 at 132"),
    ("1 1 6 32 2", 1, "refused 5 at 0"),
    ("5 0 2", 0, "refused 6 at 0"),
    ("6 7 0", 0, "refused 7 at 1"),
    ("3", 0, "refused 8 at 0"),
]

# A rule, scans, and the verdict on each: 0 kept, 1 dropped.
VERDICTS = [
    (POOL, "37 5 128 5 37 5", "0 1 0 0 0 0"),
    (POOL, "37 5 5 128 37 5 6 5", "0 1 1 0 0 1 0 0"),
    (POOL, "5 37 5", "0 0 0"),
    (BRANCHES, "5 7 6 8 6", "0 1 1 0 0"),
    # by the first branch alone the second request would be kept, and by the second alone the one after an answer
    (REQUESTS, "5 5 101 5 5 101 101 5 5", "0 1 0 0 1 0 0 0 0"),
    (REQUESTS, "101 5 5", "0 0 0"),
    (ONE + "5 0 3", "5 5 6 5", "1 1 0 0"),
    (ROUND, "31 2 29 0", "1 1 0 0"),
    (ROUND, "30 0 1 63 31", "1 1 1 0 0"),
    (ROUND_TWICE, "31 30 2 31 2", "0 1 1 0 0"),
    (ROUND_TWICE, "2 2 30 29 1 2", "0 1 1 1 0 0"),
    # max of "after 5, max of all: after 6, the outer variable; after 7, the inner one; after 5, ff"
    (ONE + SIX + SEVEN + "6 5 0 6 4 5 1 7 1 4 5 2 7 0 5 0 3", "5 5 7 5 6 5 5", "0 1 0 1 0 0 1"),
]

# A rule and lists of codes that violate it, and lists that don't.
VIOLATIONS = [
    ("3", ["", "5"], []),
    ("2", [], ["", "5"]),
    (ONE + "5 0 3", ["5", "5 6", "5 5"], ["", "6", "6 5"]),
    (ONE + SIX + "4 5 0 3 5 1 3", ["5", "6"], ["", "7 5"]),
    (ROUND, ["31", "30", "0", "2", "0 5"], ["", "29", "3", "3 31", "32", "63"]),
    (ROUND_TWICE, ["31 30", "2 2", "0 29"], ["31", "29 30", "31 31", "30 1", "2 62"]),
    (POOL, ["37 5", "37 128 37 5 9"], ["", "37", "5", "37 6 5", "37 128 5"]),
    (BRANCHES, ["5 6", "5 7"], ["5", "5 5 6", "6", "7"]),
    (REQUESTS, ["5 5", "5 5 101", "5 101 5 5"], ["", "5", "5 101 5", "5 101 101 5 5", "5 6 5 5", "101 5 5"]),
]


def listings():
    """Each file with the whole text of its listing."""
    typed = LISTINGS + known_empty.LISTINGS + known_wide.LISTINGS
    return [(bytes_of(text), "".join(line + "\n" for line in lines)) for text, lines in typed]


def sets():
    """Each file with the equations of its rule."""
    return [(bytes_of(text), equations) for text, equations in SETS + known_empty.SETS]


def fillings():
    """Each file with the size of a table and the answer."""
    return [(bytes_of(text), size, answer) for text, size, answer in FILLINGS + known_empty.FILLINGS + known_wide.FILLINGS]


def violations():
    """Each file with a list of codes and whether that violates its rule."""
    return [
        (bytes_of(text), bytes_of(codes), codes in violating)
        for text, violating, others in VIOLATIONS + known_empty.VIOLATIONS
        for codes in violating + others
    ]


def verdicts():
    """Each file with scans and whether each of them is dropped."""
    return [
        (bytes_of(text), bytes_of(scans), [verdict == 1 for verdict in bytes_of(typed)])
        for text, scans, typed in VERDICTS + known_empty.VERDICTS
    ]
