"""Days of rules on duty, and rules that are joined, typed by hand from C-18."""
from known import ANY, ONE, POOL, SIX, bytes_of, counted

# Both the number-pool rule and "after 5, ff": the second's pattern 0 is pattern 3.
POOL_AND_FIVE = "1 2 5 5 1 1 5 5 1 16 0 31 1 1 5 5 4 6 5 0 4 5 1 3 5 2 7 0 5 3 3"

# Tables with names, where they begin, and the count of their equations.
TABLES = {
    "pool": (POOL, 0, 3),
    # "after 5, ff"
    "five": (ONE + "5 0 3", 768, 2),
    # "never 6"
    "no_six": (ANY + SIX + "6 4 5 1 3 5 0 7 0", 1280, 1),
    # "after any code, after any code, ff"
    "once": (ANY + "5 0 5 0 3", 1536, 2),
    # "after any code, ff"
    "none": (ANY + "5 0 3", 2048, 1),
    "both": (POOL_AND_FIVE, 2304, 4),
}

# Where the last of them ends.
END = 3328

FIVES = counted(5)


def sixes(m):
    """The paper's second family with code 6 in place of 5."""
    return counted(m).replace(ONE, SIX)


SIXES = sixes(5)

# Rules, the rule that joins them, and how filling answers it. Each alone is accepted.
JOINED = [
    ([POOL, ONE + "5 0 3"], POOL_AND_FIVE, "equations 4"),
    (["2", "2"], "4 2 2", "equations 1"),
    (["2", ONE + "5 0 3", SIX + "5 0 3"], ONE + SIX + "4 4 2 5 0 3 5 1 3", "equations 2"),
    # five scans, of which each is 5, is 6, or is neither: 243 equations. Of seven there are 2,187
    ([FIVES, SIXES], ANY + ONE + ANY + SIX + "4 6 4 5 0 7 0 5 1 5 0 5 0 5 0 5 0 5 0 2 6 4 5 2 7 0 5 3 5 2 5 2 5 2 5 2 5 2 2", "equations 243"),
    ([counted(7), sixes(7)], ANY + ONE + ANY + SIX + "4 6 4 5 0 7 0 5 1 " + "5 0 " * 7 + "2 6 4 5 2 7 0 5 3 " + "5 2 " * 7 + "2", "refused 9 at 0"),
    # 33 patterns, and 65 nodes
    ([ONE * 17 + "2", SIX * 16 + "2"], ONE * 17 + SIX * 16 + "4 2 2", "refused 4 at 128"),
    ([ANY + "5 0 " * 31 + "2"] * 2, ANY * 2 + "4 " + "5 0 " * 31 + "2 " + "5 1 " * 31 + "2", "refused 4 at 134"),
]

# States that are handed in: the count, and all four places.
FIVE_ON = "5, 7 0 3 0, 8 768 2 0, 9 1280 1 0, 1 1536 2 0"
MOST_ON = "18446744073709551615, 7 0 3 0, 8 768 2 0, 9 1280 1 0, 1 1536 2 0"
TWICE = "2, 7 0 3 0, 7 768 2 0, 0 0 0 0, 0 0 0 0"
FAR_TWICE = "4, 7 0 3 0, 8 768 2 0, 9 1280 1 0, 7 1536 2 0"
FOUR_ON = "4, 1 0 3 0, 2 768 2 0, 3 1280 1 0, 4 1536 2 0"
ONE_ON = "1, 7 0 3 2, 7 0 3 0, 7 9 9 9, 255 18446744073709551615 0 200"
NONE_ON = "0, 7 0 3 2, 7 0 3 0, 7 9 9 9, 255 18446744073709551615 0 200"
TOO_FAR = "1, 7 0 3 3, 0 0 0 0, 0 0 0 0, 0 0 0 0"

# Kept scans that lead to the equation in which a rule is handed in, by its base and its equation; none where it is in the first.
KEPT = {(0, 2): "37"}

AS_GIVEN = "as given"

# Each day: what is done, how it is answered, and who is on duty then, each by number, base, count and equation. A run is answered
# by its verdicts.
#   on NUMBER TABLE, on NUMBER BASE COUNT LENT    a rule comes on
#   off NUMBER                                    a rule goes off
#   run SCANS, run SCANS in OUTPUT VERDICTS       a run, with buffers of the scans' length or of these
#   in STATE                                      a state is handed in, which has no answer
DAYS = [
    # with nobody on duty every scan is kept, and vacant places are no rule with number 0
    [
        ("run 5 6 37", "0 0 0", ""),
        ("run", "", ""),
        ("off 0", "refused 21", ""),
        ("off 7", "refused 21", ""),
        ("run 5 in 1 0", "refused 15", ""),
    ],
    # a scan that "never 6" drops doesn't end what the pool rule remembers
    [
        ("on 7 pool", "fit", "7 0 3 0"),
        ("on 9 no_six", "fit", "7 0 3 0, 9 1280 1 0"),
        ("run 37 6 5 128 6 5 37 5", "0 1 1 0 1 0 0 0", "7 0 3 1, 9 1280 1 0"),
    ],
    # who comes on again is the last, and in its first equation; the others stay where they are
    [
        ("on 3 once", "fit", "3 1536 2 0"),
        ("on 4 five", "fit", "3 1536 2 0, 4 768 2 0"),
        ("run 5 9 9 5", "1 0 1 1", "3 1536 2 1, 4 768 2 1"),
        ("off 3", "fit", "4 768 2 1"),
        ("run 5", "0", "4 768 2 1"),
        ("on 3 once", "fit", "4 768 2 1, 3 1536 2 0"),
        ("run 5", "0", "4 768 2 1, 3 1536 2 1"),
        ("run 5", "1", "4 768 2 1, 3 1536 2 1"),
        ("on 3 five", "refused 20", "4 768 2 1, 3 1536 2 1"),
        ("off 4", "fit", "3 1536 2 1"),
        ("on 4 five", "fit", "3 1536 2 1, 4 768 2 0"),
        ("run 9", "1", "3 1536 2 1, 4 768 2 0"),
        ("off 3", "fit", "4 768 2 0"),
        ("run 5 9 5", "1 0 0", "4 768 2 1"),
    ],
    # four on duty: a fifth is 19 whatever its number and its table; a place that was freed is taken again
    [
        ("on 1 pool", "fit", "1 0 3 0"),
        ("on 2 five", "fit", "1 0 3 0, 2 768 2 0"),
        ("on 3 no_six", "fit", "1 0 3 0, 2 768 2 0, 3 1280 1 0"),
        ("on 4 once", "fit", "1 0 3 0, 2 768 2 0, 3 1280 1 0, 4 1536 2 0"),
        ("on 5 none", "refused 19", "1 0 3 0, 2 768 2 0, 3 1280 1 0, 4 1536 2 0"),
        ("on 2 none", "refused 19", "1 0 3 0, 2 768 2 0, 3 1280 1 0, 4 1536 2 0"),
        ("on 5 0 3 0", "refused 19", "1 0 3 0, 2 768 2 0, 3 1280 1 0, 4 1536 2 0"),
        ("run 6 5 37 5", "1 1 0 1", "1 0 3 2, 2 768 2 1, 3 1280 1 0, 4 1536 2 1"),
        ("off 2", "fit", "1 0 3 2, 3 1280 1 0, 4 1536 2 1"),
        ("off 4", "fit", "1 0 3 2, 3 1280 1 0"),
        ("on 2 none", "fit", "1 0 3 2, 3 1280 1 0, 2 2048 1 0"),
        ("run 128 37", "1 1", "1 0 3 2, 3 1280 1 0, 2 2048 1 0"),
        ("off 2", "fit", "1 0 3 2, 3 1280 1 0"),
        ("run 128 37 5 6", "0 0 1 1", "1 0 3 2, 3 1280 1 0"),
    ],
    # 16 for a table: an entry too few, a base at the end, behind it and far behind, counts, and an entry
    [
        ("on 7 0 3 767", "refused 16", ""),
        ("on 7 3328 1 3328", "refused 16", ""),
        ("on 7 3329 1 3328", "refused 16", ""),
        ("on 7 18446744073709551615 1 3328", "refused 16", ""),
        ("on 7 18446744073709551360 1 3328", "refused 16", ""),
        ("on 7 0 0 3328", "refused 16", ""),
        ("on 7 0 1001 262144", "refused 16", ""),
        ("on 7 0 36028797018963968 3328", "refused 16", ""),
        ("on 7 0 72057594037927936 3328", "refused 16", ""),
        ("on 7 0 2 3328", "refused 16", ""),
        ("on 7 0 3 768", "fit", "7 0 3 0"),
        ("on 7 3328 1 3328", "refused 20", "7 0 3 0"),
        ("on 0 five", "fit", "7 0 3 0, 0 768 2 0"),
        ("on 255 none", "fit", "7 0 3 0, 0 768 2 0, 255 2048 1 0"),
        ("off 0", "fit", "7 0 3 0, 255 2048 1 0"),
        ("off 0", "refused 21", "7 0 3 0, 255 2048 1 0"),
    ],
    # over four rules, or a number twice: 16 before all else but 15
    [
        ("in " + FIVE_ON, None, AS_GIVEN),
        ("on 2 none", "refused 16", AS_GIVEN),
        ("off 7", "refused 16", AS_GIVEN),
        ("off 2", "refused 16", AS_GIVEN),
        ("run 5", "refused 16", AS_GIVEN),
        ("run 5 in 0 1", "refused 15", AS_GIVEN),
        ("in " + MOST_ON, None, AS_GIVEN),
        ("on 7 none", "refused 16", AS_GIVEN),
        ("off 7", "refused 16", AS_GIVEN),
        ("run", "refused 16", AS_GIVEN),
        ("in " + TWICE, None, AS_GIVEN),
        ("on 7 none", "refused 16", AS_GIVEN),
        ("off 8", "refused 16", AS_GIVEN),
        ("run 9", "refused 16", AS_GIVEN),
        ("run 9 in 1 0", "refused 15", AS_GIVEN),
        ("in " + FAR_TWICE, None, AS_GIVEN),
        ("on 2 none", "refused 16", AS_GIVEN),
        ("off 8", "refused 16", AS_GIVEN),
        ("run", "refused 16", AS_GIVEN),
    ],
    # four handed in: 19, also with a number that is on
    [
        ("in " + FOUR_ON, None, AS_GIVEN),
        ("on 4 none", "refused 19", AS_GIVEN),
        ("on 5 none", "refused 19", AS_GIVEN),
        ("run 5 37", "1 0", "1 0 3 2, 2 768 2 1, 3 1280 1 0, 4 1536 2 1"),
    ],
    # what stands behind the count has no say. A refused call hands it back, any other one takes it away
    [
        ("in " + ONE_ON, None, AS_GIVEN),
        ("off 255", "refused 21", AS_GIVEN),
        ("on 7 none", "refused 20", AS_GIVEN),
        ("on 8 0 0 3328", "refused 16", AS_GIVEN),
        ("run 5 in 0 0", "refused 15", AS_GIVEN),
        ("run 5", "1", "7 0 3 2"),
        ("in " + ONE_ON, None, AS_GIVEN),
        ("on 255 five", "fit", "7 0 3 2, 255 768 2 0"),
        ("in " + ONE_ON, None, AS_GIVEN),
        ("off 7", "fit", ""),
        ("in " + NONE_ON, None, AS_GIVEN),
        ("off 7", "refused 21", AS_GIVEN),
        ("run 5 5", "0 0", ""),
        ("in " + NONE_ON, None, AS_GIVEN),
        ("on 7 pool", "fit", "7 0 3 0"),
    ],
    # an equation that isn't under its count: no run, but others come on, and it goes off
    [
        ("in " + TOO_FAR, None, AS_GIVEN),
        ("run", "refused 16", AS_GIVEN),
        ("run 9 in 1 0", "refused 15", AS_GIVEN),
        ("on 8 five", "fit", "7 0 3 3, 8 768 2 0"),
        ("run 9", "refused 16", "7 0 3 3, 8 768 2 0"),
        ("off 7", "fit", "8 768 2 0"),
        ("run 9 5", "0 0", "8 768 2 1"),
    ],
    # one table for all
    [
        ("on 1 pool", "fit", "1 0 3 0"),
        ("run 37", "0", "1 0 3 2"),
        ("on 2 pool", "fit", "1 0 3 2, 2 0 3 0"),
        ("run 37 5", "0 1", "1 0 3 1, 2 0 3 2"),
        ("on 3 pool", "fit", "1 0 3 1, 2 0 3 2, 3 0 3 0"),
        ("on 4 pool", "fit", "1 0 3 1, 2 0 3 2, 3 0 3 0, 4 0 3 0"),
        ("run 37 128", "0 0", "1 0 3 1, 2 0 3 1, 3 0 3 0, 4 0 3 0"),
    ],
    # two rules, with dropped scans alone between their comings, and on the next day the one that joins them
    [
        ("on 8 five", "fit", "8 768 2 0"),
        ("run 5 5", "1 1", "8 768 2 0"),
        ("on 7 pool", "fit", "8 768 2 0, 7 0 3 0"),
        ("run 5 37 5 5 128 5", "1 0 1 1 0 0", "8 768 2 1, 7 0 3 1"),
    ],
    [
        ("on 1 both", "fit", "1 2304 4 0"),
        ("run 5 37 5 5 128 5", "1 0 1 1 0 0", "1 2304 4 1"),
    ],
]


def tables():
    """Each table's name with its rule file, its base and its count."""
    return {name: (bytes_of(text), base, count) for name, (text, base, count) in TABLES.items()}


def kept_before(base, equation):
    return bytes_of(KEPT.get((base, equation), ""))


def joins():
    """The files of rules, the file of the joined rule, and the answer to it."""
    return [([bytes_of(text) for text in texts], bytes_of(one), answer) for texts, one, answer in JOINED]


def state_of(places):
    """The whole state in which these are on duty, as it is printed: the other places are vacant."""
    places = places.split(", ") if places else []
    return " ".join([str(len(places))] + places + ["0 0 0 0"] * (4 - len(places)))


def days():
    """Each day as its steps: the words of what is done, the answer, and the state then."""
    for day in DAYS:
        given, steps = "", []
        for step, answer, places in day:
            words = step.replace(",", "").split()
            given = " ".join(words[1:]) if words[0] == "in" else given
            steps.append((words, answer, given if places == AS_GIVEN else state_of(places)))
        yield steps
