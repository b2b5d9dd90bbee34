"""Answers of judging, and refusals of model files, typed by hand from the paper."""
from known import ANY, ONE, POOL, SIX, bytes_of, counted
from known_empty import BESIDE, NEVER_LATER, NEVER_MET, ROUND_AGAIN
from known_equations import BRANCHES, PLACES, REQUESTS, ROUND, ROUND_TWICE, late
from known_runs import SECOND
from known_wide import TOO_WIDE, WIDEST

# The paper's model, which breaks the number-pool rule, and one that meets it.
PAPER = "16 3 17 0 37 1 18 1 2 17 2 5 0"
MEETING = "16 3 17 0 37 1 18 1 2 17 2 128 0 17 0 5 2"

# "after 5, ff", "after 5, after 6, ff", and a max of "after 5, the variable" and "after 6, ff".
NEVER = ONE + "5 0 3"
TWICE = ONE + SIX + "5 0 5 1 3"
UNTIL = ONE + SIX + "6 4 5 0 7 0 5 1 3"

# A rule, models that meet it and models that break it.
JUDGED = [
    (POOL, [MEETING], [PAPER]),
    # no steps at all, and every step silent
    (POOL, ["16 1", "16 64", "16 2 18 0 1 18 1 0", "16 1 18 0 0"], []),
    # a sync starts the rule again; a scan that no branch takes ends it
    (POOL, ["16 5 17 0 37 1 17 1 128 2 17 2 38 3 17 3 37 4 17 4 5 0"], []),
    (POOL, ["16 4 17 0 38 1 17 1 37 2 17 2 5 3", "16 4 17 0 37 1 17 1 6 2 17 2 5 3"], []),
    (POOL, [], ["16 5 17 0 37 1 17 1 128 2 17 2 37 3 17 3 5 4", "16 2 17 0 37 1 17 1 128 0 17 1 5 1"]),
    # slots that go round
    (ROUND, ["16 1 17 0 29 0", "16 1 17 0 3 0", "16 1 17 0 63 0"], ["16 1 17 0 31 0", "16 1 17 0 30 0", "16 1 17 0 0 0"]),
    (ROUND_TWICE, ["16 2 17 0 31 1 17 1 1 0", "16 1 17 0 31 0"], ["16 2 17 0 31 1 17 1 2 0", "16 1 17 0 30 0"]),
    # an empty pattern: a model need not keep to what comes after it
    (NEVER_MET, ["16 1 17 0 5 0", "16 2 18 0 1 17 1 5 0", PAPER], []),
    (NEVER_LATER, ["16 1 17 0 5 0", "16 2 17 0 5 1 18 1 0"], []),
    (BESIDE, ["16 1 17 0 6 0"], ["16 1 17 0 5 0", "16 2 18 0 1 17 1 5 0"]),
    (ROUND_AGAIN, ["16 1 17 0 5 0", "16 2 17 0 7 1 17 1 6 1"], ["16 1 17 0 5 0 17 0 6 0"]),
    # silent steps before the code, after it, and in a loop
    (NEVER, ["16 1 17 0 6 0", "16 2 17 0 6 1 17 1 5 0"], ["16 1 17 0 5 0"]),
    (NEVER, [], ["16 2 18 0 1 17 1 5 0", "16 3 18 0 1 18 1 2 17 2 5 2", "16 2 18 0 1 18 1 0 17 1 5 1"]),
    (NEVER, [], ["16 1 18 0 0 17 0 5 0", "16 1 17 0 5 0 18 0 0", "16 3 17 2 5 2 18 1 2 18 0 1"]),
    (TWICE, [], ["16 3 17 0 5 1 18 1 2 17 2 6 0", "16 4 17 0 5 1 18 1 2 18 2 3 17 3 6 3"]),
    (TWICE, [], ["16 4 18 0 1 17 1 5 2 18 2 3 17 3 6 0", "16 2 17 0 5 1 18 1 0 17 1 6 0", "16 1 17 0 5 0 17 0 6 0"]),
    # a silent step the other way round, and one that leads past the code
    (NEVER, ["16 2 18 1 0 17 1 5 0", "16 3 18 0 1 17 2 5 0 18 2 0"], []),
    (TWICE, ["16 3 17 0 5 1 18 2 1 17 2 6 0", "16 2 17 0 5 1 17 0 6 1"], []),
    # one of two steps with the same code breaks it
    (TWICE, ["16 3 17 0 5 1 17 0 5 2"], ["16 3 17 0 5 1 17 0 5 2 17 2 6 0", "16 3 17 0 5 2 17 0 5 1 17 2 6 0"]),
    (TWICE, [], ["16 2 17 0 5 0 17 0 5 1 17 1 6 1", "16 2 17 0 5 1 17 0 5 0 17 1 6 1"]),
    # the same steps again and again
    (NEVER, ["16 1 17 0 6 0 17 0 6 0 17 0 6 0"], ["16 1 17 0 5 0 17 0 5 0", "16 2 18 0 1 18 0 1 17 1 5 1 17 1 5 1"]),
    # a breaking step at a state that no walk reaches
    (NEVER, ["16 2 17 1 5 0", "16 3 17 1 5 0 17 2 5 2 18 1 0", "16 64 17 63 5 0"], ["16 64 17 63 5 0 18 0 63"]),
    # the greatest fixed point: to go on for ever is allowed
    (UNTIL, ["16 1 17 0 5 0", "16 2 17 0 5 1 17 1 5 0", "16 2 17 0 7 1 17 1 6 1"], ["16 1 17 0 5 0 17 0 6 0"]),
    (UNTIL, [], ["16 3 17 0 5 1 17 1 5 2 17 2 5 0 17 2 6 0", "16 3 17 0 5 0 18 0 1 18 1 2 17 2 6 2"]),
    # two branches of one code
    (BRANCHES, ["16 3 17 0 5 1 17 1 8 2 17 2 6 2"], ["16 3 17 0 5 1 17 1 6 2", "16 3 17 0 5 1 17 1 7 2"]),
    # the article's system that sends two requests; one that waits for each answer, and one that answers unasked
    (REQUESTS, ["16 2 17 0 5 1 17 1 101 0", "16 1 17 0 101 0"], ["16 3 17 0 5 1 17 1 5 2", "16 1 17 0 5 0 17 0 101 0"]),
    # "6 is never the second code after 5": each 5 counts
    (SECOND, ["16 1 17 0 5 0", "16 1 17 0 6 0", "16 2 17 0 5 1 17 1 6 0"], ["16 1 17 0 5 0 17 0 6 0"]),
    (SECOND, [], ["16 3 17 0 5 1 17 1 5 2 17 2 6 0"]),
    (SECOND, [], ["16 3 17 0 5 1 17 1 9 2 17 2 6 0", "16 3 17 0 5 1 18 1 1 17 1 9 2 18 2 0 17 0 6 0"]),
    # tt, also by 128 equations
    ("2", ["16 1", "16 1 17 0 5 0", PAPER], []),
    (counted(7), ["16 1 17 0 5 0 17 0 6 0", PAPER], []),
    # any code, and the lowest and the highest one
    (ANY + "5 0 3", ["16 1", "16 2 17 1 0 0"], ["16 1 17 0 0 0", "16 1 17 0 255 0", "16 64 17 0 128 63"]),
    (ANY + "5 0 5 0 3", ["16 2 17 0 0 1 18 1 1"], ["16 2 17 0 255 1 18 1 0", "16 1 17 0 7 0"]),
]

FULL = "16 2 " + "17 0 38 1 " * 512
FULL_SILENT = "16 64 " + "18 0 63 " * 512

# A model file and the number and place of its refusal.
REFUSED = [
    # the first record
    ("", 11, 0),
    ("0", 12, 0),
    ("17", 12, 0),
    ("18 0 0", 12, 0),
    ("15 3", 12, 0),
    ("16", 11, 1),
    ("16 0", 12, 0),
    ("16 65", 12, 0),
    ("16 255 17", 12, 0),
    ("16 0 19", 12, 0),
    # 12 at a step
    ("16 1 0", 12, 2),
    ("16 1 16", 12, 2),
    ("16 1 19", 12, 2),
    ("16 1 16 1", 12, 2),
    ("16 1 18 0 0 255", 12, 5),
    ("16 1 17 0 0 0 18 0 0 1", 12, 9),
    # 11 at a step
    ("16 1 17", 11, 3),
    ("16 1 17 0", 11, 4),
    ("16 1 17 0 0", 11, 5),
    ("16 1 18", 11, 3),
    ("16 1 18 0", 11, 4),
    ("16 1 18 0 0 18 0", 11, 7),
    # 13: from and to, with a code and silent
    ("16 1 17 1 0 0", 13, 2),
    ("16 1 17 0 0 1", 13, 2),
    ("16 1 18 1 0", 13, 2),
    ("16 1 18 0 1", 13, 2),
    ("16 64 17 64 0 0", 13, 2),
    ("16 64 18 63 0 18 0 64", 13, 5),
    ("16 3 17 2 3 2 17 2 0 3", 13, 6),
    ("16 3 18 0 255", 13, 2),
    # two faults at one record
    ("16 1 17 1", 11, 4),
    ("16 1 17 1 0", 11, 5),
    ("16 1 18 1", 11, 4),
    ("16 1 19 1 1", 12, 2),
    # two at two records: the left one
    ("16 1 17 1 0 0 19", 13, 2),
    ("16 1 19 17 1 0 0", 12, 2),
    ("16 1 18 0 1 17 0", 13, 2),
    ("16 1 18 1 0 17 0 0 1", 13, 2),
    # the limit of steps, with all that can be wrong at a 513th
    (FULL + "17 0 38 1", 14, 2050),
    (FULL + "18 0 1", 14, 2050),
    (FULL + "17", 14, 2050),
    (FULL + "18 0", 14, 2050),
    (FULL + "17 2 38 1", 14, 2050),
    (FULL + "18 0 2", 14, 2050),
    (FULL + "19", 12, 2050),
    (FULL + "0 0 0 0", 12, 2050),
    (FULL_SILENT + "18 0 63", 14, 1538),
    (FULL_SILENT + "17 64", 14, 1538),
    (FULL_SILENT + "16 64", 12, 1538),
    # a fault before the limit, and the last step that fits
    ("16 2 17 0 38 2 " + "17 0 38 1 " * 512, 13, 2),
    ("16 2 " + "17 0 38 1 " * 511 + "17 0 38 2 18 0 0", 13, 2046),
    ("16 2 " + "17 0 38 1 " * 511 + "17 0 38", 11, 2049),
    ("16 2 " + "17 0 38 1 " * 511 + "19 0 38 1", 12, 2046),
    # the whole file is read before it is judged
    (PAPER + " 19", 12, 13),
    (PAPER + " 18 0", 11, 15),
    (PAPER + " 18 0 3", 13, 13),
]

# A rule, a model, the size of a table that the rule's rows just fit, and the answer.
FITTING = [
    (POOL, PAPER, 768, "breaks"),
    (POOL, MEETING, 768, "meets"),
    ("2", PAPER, 256, "meets"),
    (PLACES, "16 1 17 0 6 0", 1024, "breaks"),
    (PLACES, "16 1 17 0 5 0", 1024, "meets"),
    (NEVER_MET, PAPER, 512, "meets"),
    (counted(7), PAPER, 32768, "meets"),
    (counted(8), PAPER, 65536, "meets"),
    (WIDEST, PAPER, 256000, "meets"),
]

# A rule, a model, the table's size, and the number and place of the refusal: of the rule, then 10, then of the model.
ORDER = [
    (POOL, PAPER, 767, 10, 0),
    (POOL, PAPER, 0, 10, 0),
    (POOL, "", 767, 10, 0),
    (POOL, "16 1 19", 0, 10, 0),
    (POOL, "16 1 18 0 1", 767, 10, 0),
    (POOL, FULL + "18 0 1", 767, 10, 0),
    (POOL, "", 768, 11, 0),
    (POOL, "16 1 19", 768, 12, 2),
    (POOL, "16 1 18 0 1", 40000, 13, 2),
    (POOL, FULL + "18 0 1", 768, 14, 2050),
    ("2", "16 1", 255, 10, 0),
    ("2", "16", 255, 10, 0),
    ("2", "16", 256, 11, 1),
    # 10 goes by the long table, and counts what an empty pattern adds
    (NEVER_MET, "16 1", 511, 10, 0),
    (PLACES, "16 1", 1023, 10, 0),
    (PLACES, "16 1", 768, 10, 0),
    (PLACES, "16 0", 1023, 10, 0),
    (PLACES, "16 0", 1024, 12, 0),
    (counted(7), PAPER, 32767, 10, 0),
    (counted(7), "16 1", 256, 10, 0),
    (counted(7), "", 32767, 10, 0),
    (counted(7), "", 32768, 11, 0),
    # a refused rule: with a model that is refused or not, and with a table that is too small or not
    ("", "", 40000, 1, 0),
    ("", "", 0, 1, 0),
    ("2 2", PAPER, 0, 3, 1),
    ("2 2", "16 0", 767, 3, 1),
    ("2 2", PAPER, 32768, 3, 1),
    ("2 2", "16 0", 32768, 3, 1),
    ("3", "16 1", 255, 8, 0),
    ("3", "16 1 19", 32768, 8, 0),
    (counted(8), "16 1", 65535, 10, 0),
    (late(28), PAPER, 33023, 10, 0),
    (counted(10), "16 1", 32767, 9, 0),
    (counted(10), "", 0, 9, 0),
    (counted(10), "", 65536, 9, 0),
    (TOO_WIDE, PAPER, 262144, 9, 0),
    (WIDEST, "", 255999, 10, 0),
    (WIDEST, "", 256000, 11, 0),
]


def judged():
    """Each rule file with a model file and the answer."""
    return [
        (bytes_of(rule), bytes_of(model), "meets" if model in meeting else "breaks")
        for rule, meeting, breaking in JUDGED
        for model in meeting + breaking
    ]


def refused():
    """Each model file with the line of its refusal."""
    return [(bytes_of(model), f"refused {number} at {place}") for model, number, place in REFUSED]


def fitting():
    """Each rule file with a model file, the table's size and the answer."""
    return [(bytes_of(rule), bytes_of(model), size, answer) for rule, model, size, answer in FITTING]


def ordered():
    """Each rule file with a model file, the table's size and the line of the refusal."""
    return [
        (bytes_of(rule), bytes_of(model), size, f"refused {number} at {place}")
        for rule, model, size, number, place in ORDER
    ]
