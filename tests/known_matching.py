"""Answers of matching, typed by hand from the words of C-20."""
from known import bytes_of
from known_models import FULL, MEETING, PAPER

# Code 5 for ever, in one state; in two by turns; and in one of two, while the other has no steps. Code 5 and then no more.
# In one state for ever silence, code 0, and code 6.
LOOP = "16 1 17 0 5 0"
TURNS = "16 2 17 0 5 1 17 1 5 0"
SPARE = "16 2 17 0 5 0"
END = "16 2 17 0 5 1"
SILENT_LOOP = "16 1 18 0 0"
ZERO_LOOP = "16 1 17 0 0 0"
SIX_LOOP = "16 1 17 0 6 0"

# After 5, a choice between 6 and 7; and a 5 for each of them. The same traces, and not bisimilar.
LATE = "16 3 17 0 5 1 17 1 6 2 17 1 7 2"
EARLY = "16 4 17 0 5 1 17 0 5 2 17 1 6 3 17 2 7 3"

# After 5, code 6; and the same with a 5 after which there is no more. Each can follow the other, and they aren't bisimilar.
STRAIGHT = "16 3 17 0 5 1 17 1 6 2"
STRANDED = "16 4 17 0 5 1 17 1 6 2 17 0 5 3"

# Two models, lists that match them, and lists that don't.
MATCHED = [
    (TURNS, LOOP, ["0 0 1 0", "1 0 0 0", "0 0 1 0 0 0 1 0 1 0"], ["0 0", "1 0", ""]),
    (LOOP, TURNS, ["0 0 0 1"], ["0 0", "0 1", ""]),
    (TURNS, SPARE, ["0 0 1 0"], ["0 0 1 0 0 1", "0 0 1 0 1 1", "0 0", "0 1 1 1", ""]),
    (SPARE, TURNS, ["0 0 0 1"], ["0 0 0 1 1 0", "0 0 1 1", ""]),
    (TURNS, TURNS, ["0 0 1 1", "0 0 0 1 1 0 1 1"], ["0 1 1 0", "0 0 0 1", "0 0 0 1 1 1", "0 0 0 1 1 0"]),
    (LOOP, LOOP, ["0 0", "0 0 0 0"], [""]),
    # a silent step is a step like any other, and none of code 0
    (SILENT_LOOP, SILENT_LOOP, ["0 0"], [""]),
    (SILENT_LOOP, LOOP, [], ["0 0", ""]),
    (LOOP, SILENT_LOOP, [], ["0 0"]),
    (SILENT_LOOP, ZERO_LOOP, [], ["0 0"]),
    (ZERO_LOOP, SILENT_LOOP, [], ["0 0"]),
    ("16 1 17 0 255 0", SILENT_LOOP, [], ["0 0"]),
    (LOOP, SIX_LOOP, [], ["0 0"]),
    ("16 2 18 0 1 17 1 5 0", LOOP, [], ["0 0", "0 0 1 0"]),
    # no steps: any two states match
    ("16 1", "16 1", ["0 0"], [""]),
    ("16 3", "16 2", ["0 0", "0 0 2 1", "0 0 0 1 1 0 1 1 2 0 2 1"], ["2 1", "1 0 0 1", ""]),
    (SPARE, SPARE, ["0 0", "0 0 1 1"], ["1 1", "0 0 1 0", "0 0 0 1"]),
    (SPARE, "16 3 17 0 5 0", ["0 0 1 1", "0 0 1 2 1 1", "1 2 0 0"], ["1 2", "1 1 1 2", "0 0 0 2"]),
    # a step that only one of the two has, and a step that leads elsewhere
    (END, LOOP, [], ["0 0", "0 0 1 0", "1 0"]),
    (LOOP, END, [], ["0 0", "0 0 0 1"]),
    (LOOP, "16 1", [], ["0 0"]),
    ("16 1", LOOP, [], ["0 0"]),
    ("16 1 17 0 5 0 17 0 6 0", LOOP, [], ["0 0"]),
    (LOOP, "16 1 17 0 5 0 17 0 6 0", [], ["0 0"]),
    (END, END, ["0 0 1 1"], ["0 0", "1 1", "0 0 1 1 0 1", "0 0 1 1 1 0"]),
    (END, "16 3 17 0 5 1 17 0 5 2", ["0 0 1 1 1 2"], ["0 0 1 1", "0 0 1 2"]),
    ("16 3 17 0 5 1 17 0 5 2", END, ["0 0 1 1 2 1"], ["0 0 1 1", "0 0 2 1"]),
    # the same step again and again
    ("16 1 17 0 5 0 17 0 5 0 17 0 5 0", LOOP, ["0 0"], [""]),
    (SILENT_LOOP, "16 1 18 0 0 18 0 0", ["0 0"], [""]),
    # a choice that comes late and one that comes early
    (LATE, EARLY, [], ["0 0 1 1 1 2 2 3", "0 0 1 1 2 3", "0 0", "0 0 2 3"]),
    (EARLY, LATE, [], ["0 0 1 1 2 1 3 2", "0 0 3 2"]),
    (LATE, LATE, ["0 0 1 1 2 2"], ["0 0 1 1", "0 0 1 1 2 2 1 2"]),
    (EARLY, EARLY, ["0 0 1 1 2 2 3 3", "3 3 2 2 1 1 0 0"], ["0 0 1 1 2 2 3 3 1 2", "0 0 1 1 3 3"]),
    # each can follow the other, by another list
    (STRAIGHT, STRANDED, [], ["0 0 1 1 2 2", "0 0 1 1 2 2 1 3", "0 0 1 1 2 2 2 3"]),
    (STRANDED, STRAIGHT, [], ["0 0 1 1 2 2", "0 0 1 1 2 2 3 1", "0 0 1 1 2 2 3 2"]),
    # a step between states that no walk reaches: it counts where a pair has them
    ("16 3 17 0 5 0 17 1 6 2", "16 3 17 0 5 0 17 2 6 1", ["0 0", "0 0 1 2 2 1", "0 0 2 1"], ["0 0 1 2", "0 0 1 1"]),
    # the last of 64 states
    ("16 64 17 0 5 63", "16 64 17 0 5 63", ["0 0 63 63", "0 0 63 63 62 1"], ["0 0", "0 0 63 62", "63 63"]),
    ("16 64 17 0 5 63", END, ["0 0 63 1", "0 0 63 1 62 1"], ["0 0 62 1", "0 0 63 1 63 0"]),
    (PAPER, PAPER, ["0 0 1 1 2 2"], ["0 0 1 1", "0 0 2 2", "0 0 1 1 2 2 1 2"]),
    (PAPER, MEETING, [], ["0 0 1 1 2 2"]),
]

ENDLESS = "0 0 " * 4096

# Two models, a list and its refusal.
PAIRS_REFUSED = [
    (LOOP, LOOP, "0", 22, 1),
    (LOOP, LOOP, "0 0 0", 22, 3),
    (LOOP, LOOP, "9", 22, 1),
    (LOOP, LOOP, "0 0 255", 22, 3),
    (TURNS, LOOP, "2 0", 23, 0),
    (TURNS, LOOP, "0 1", 23, 0),
    (TURNS, LOOP, "2 1", 23, 0),
    (TURNS, LOOP, "1 0 0 1", 23, 2),
    (TURNS, LOOP, "0 0 1 0 255 0", 23, 4),
    (LOOP, TURNS, "0 2", 23, 0),
    (LOOP, TURNS, "1 0", 23, 0),
    (LOOP, TURNS, "0 0 0 1 0 255", 23, 4),
    ("16 64", "16 64", "63 63 64 0", 23, 2),
    ("16 64", "16 64", "63 63 0 64", 23, 2),
    # two faults: the left one, also behind a list that matches nothing
    (LOOP, LOOP, "1 0 0", 23, 0),
    (LOOP, LOOP, "0 1 1 0 0", 23, 0),
    (LOOP, SIX_LOOP, "0 0 0", 22, 3),
    (LOOP, SIX_LOOP, "0 0 0 1", 23, 2),
    # a 4,097th pair, with all that can be wrong there
    (LOOP, LOOP, ENDLESS + "0 0", 24, 8192),
    (LOOP, SIX_LOOP, ENDLESS + "0 0", 24, 8192),
    (LOOP, LOOP, ENDLESS + "0", 22, 8193),
    (LOOP, LOOP, ENDLESS + "1", 22, 8193),
    (LOOP, LOOP, ENDLESS + "1 0", 23, 8192),
    (LOOP, LOOP, ENDLESS + "0 1", 23, 8192),
    (LOOP, LOOP, ENDLESS + "0 0 0", 24, 8192),
    (LOOP, LOOP, ENDLESS + "0 0 1 0", 24, 8192),
    (LOOP, LOOP, ENDLESS + "1 0 0", 23, 8192),
    (LOOP, LOOP, "1 0 " + ENDLESS, 23, 0),
    (LOOP, LOOP, "0 1 " + ENDLESS + "0", 23, 0),
    (LOOP, LOOP, "0 0 " * 4095 + "0 1 0 0", 23, 8190),
    (LOOP, LOOP, "0 0 " * 4095 + "0", 22, 8191),
]

# Two models and a list, which of the models is refused, and how.
MODELS_REFUSED = [
    ("", LOOP, "0 0", "first", 11, 0),
    (LOOP, "", "0 0", "second", 11, 0),
    ("", "", "", "first", 11, 0),
    ("16", "17", "0", "first", 11, 1),
    ("17", "16", "0", "first", 12, 0),
    (LOOP, "16", "0", "second", 11, 1),
    (LOOP, "16 0", "1 0", "second", 12, 0),
    (LOOP, "16 65", "0 0", "second", 12, 0),
    (LOOP, "16 1 19", ENDLESS + "0 0", "second", 12, 2),
    ("16 1 18 0 1", "16 1 19", "0 0", "first", 13, 2),
    (LOOP, "16 1 18 0 1", "0 0", "second", 13, 2),
    (LOOP, "16 1 17 1 5 0", "2 2", "second", 13, 2),
    (FULL + "17 0 38 1", LOOP, "0 0", "first", 14, 2050),
    (LOOP, FULL + "17 0 38 1", "0 0", "second", 14, 2050),
    (FULL + "18 0 1", FULL + "19", "0", "first", 14, 2050),
    (FULL, FULL + "19", "0", "second", 12, 2050),
]

# A list of as many pairs as there may be, and long models.
LARGE = [
    (LOOP, LOOP, ENDLESS, "yes"),
    (LOOP, SIX_LOOP, ENDLESS, "no"),
    (LOOP, LOOP, "0 0 " * 4095, "yes"),
    (TURNS, LOOP, "0 0 " * 4095 + "1 0", "yes"),
    (TURNS, LOOP, "1 0 " * 4095 + "0 0", "yes"),
    (TURNS, LOOP, ENDLESS, "no"),
    (TURNS, LOOP, "1 0 " * 4096, "no"),
    (FULL, FULL, "0 0 1 1", "yes"),
    (FULL, "16 2 17 0 38 1", "0 0 1 1", "yes"),
    (FULL, "16 2 17 0 38 1", "0 0 1 1 0 1", "no"),
    ("16 2 " + "17 0 38 1 " * 511 + "17 0 39 1", "16 2 17 0 38 1", "0 0 1 1", "no"),
    ("16 2 17 0 38 1", "16 2 " + "17 0 38 1 " * 511 + "17 0 39 1", "0 0 1 1", "no"),
]


def answers():
    """Each two model files with a list and the answer."""
    typed = [(first, second, pairs, "yes") for first, second, lists, _ in MATCHED for pairs in lists]
    typed += [(first, second, pairs, "no") for first, second, _, lists in MATCHED for pairs in lists]
    typed += [(*case, f"pairs refused {number} at {place}") for *case, number, place in PAIRS_REFUSED]
    typed += [(*case, f"{which} refused {number} at {place}") for *case, which, number, place in MODELS_REFUSED]
    return [(*map(bytes_of, case), answer) for *case, answer in typed + LARGE]
