"""Lists with faults, and cases of which several inputs are refused. A case is two model files and a list of pairs."""
from itertools import product

from known import bytes_of
from known_matching import END, LOOP, TURNS
from known_models import FULL, PAPER
from matching import MOST_PAIRS, list_of
from model_faults import MIXED
from models import MOST_STATES, file_of

# Numbers at the edges of what a byte of a list can mean.
EDGES = [0, 1, 2, 3, 4, 5, 6, 63, 64, 65, 127, 128, 254, 255]

# A drawing of five states and a simplified one of three, a list that matches the two, and one that doesn't.
DRAWN = file_of(5, [(0, 5, 1), (1, 6, 2), (0, 5, 3), (3, 6, 4)])
SIMPLE = file_of(3, [(0, 5, 1), (1, 6, 2)])
LIST = bytes_of("0 0 1 1 2 2 3 1 4 2")
WRONG = bytes_of("0 0 1 1 2 2 3 1 4 0")

# Model files with each of the refusals.
REFUSED_MODELS = ["", "16", "17", "16 0", "16 65", "16 1 17 0", "16 1 19", "16 1 17 0 9 1", "16 1 18 1 0", FULL + "18 0 1"]


def cut_cases():
    """Lists cut at every place, and model files cut at every place: the first, the second and both."""
    cases = [(DRAWN, SIMPLE, pairs[:length]) for pairs in (LIST, WRONG) for length in range(len(pairs) + 1)]
    paper, same = bytes_of(PAPER), list_of((state, state) for state in range(3))
    for whole, pairs in ((paper, same), (MIXED, list_of((state, state) for state in range(5)))):
        for length in range(len(whole)):
            cut = whole[:length]
            cases += [(cut, whole, pairs), (whole, cut, pairs), (cut, cut, pairs), (whole, cut, pairs[:-1])]
    return cases


def changed_cases():
    """Lists with each of their bytes changed, and with a byte more at each place."""
    cases = []
    for at, byte in product(range(len(LIST)), EDGES):
        cases.append((DRAWN, SIMPLE, LIST[:at] + bytes([byte]) + LIST[at + 1 :]))
    return cases + [(DRAWN, SIMPLE, LIST[:at] + bytes([byte]) + LIST[at:]) for at in range(len(LIST) + 1) for byte in (0, 2, 9)]


def count_cases():
    """The last state, the next number and others, in either place of a pair, for models of many sizes."""
    cases = []
    for count, other in product((1, 2, 7, 32, 63, MOST_STATES), (1, 5, 63, MOST_STATES)):
        ends = [(count - 1, other - 1), (count, 0), (0, other), (count, other), (255, 0), (0, 255), (count - 1, other)]
        cases += [(file_of(count, []), file_of(other, []), list_of([(0, 0), pair])) for pair in ends]
    return cases


def two_fault_cases():
    """Every two of a few pieces, most of them faulty, at the beginning and behind lists that match and that don't; and a
    few around the 4,097th pair."""
    pieces = [bytes(some) for some in ([0, 0], [5, 0], [0, 3], [255, 255], [0], [5], [])]
    endings = dict.fromkeys(a + b for a, b in product(pieces, repeat=2))
    cases = [(DRAWN, SIMPLE, head + end) for head in (b"", LIST, WRONG) for end in endings]
    last = [bytes_of(text) for text in ("", "0", "5", "0 0", "5 0", "0 3", "0 0 0", "5 0 0", "0 0 5 0", "0 3 5 0")]
    for head, count in ((LIST, MOST_PAIRS - 1), (LIST, MOST_PAIRS), (WRONG, MOST_PAIRS)):
        cases += [(DRAWN, SIMPLE, head + bytes(2 * count - len(head)) + end) for end in last]
    return cases


def early_cases():
    """Lists of too many pairs, of which one has another fault: the first, the last that may be, one in between, and those
    behind it."""
    cases = [(DRAWN, SIMPLE, bytes(length)) for length in (8195, 10000, 16383, 16384)]
    for at, fault in product((0, 2047, 4095, 4096, 4097), (bytes([5, 0]), bytes([0, 3]))):
        cases.append((DRAWN, SIMPLE, bytes(2 * at) + fault + bytes(2 * (MOST_PAIRS + 1 - at) + at % 2)))
    return cases


def grid():
    """Inputs of which none, one, two or all three are refused."""
    good, bad = ([bytes_of(text) for text in texts] for texts in ((LOOP, TURNS, END), REFUSED_MODELS))
    lists = [bytes_of(text) for text in ("0 0", "", "0 0 1 0", "0", "2 0", "0 0 0 64", "9 9 9")]
    cases = [*product(good, good, lists), *product(good, bad, lists), *product(bad, good, lists), *product(bad, bad, lists[2:5])]
    return cases + [*product((good[0], bad[0], bad[7]), (good[0], bad[1], bad[8]), [bytes(2 * MOST_PAIRS + 2)])]


def noise_cases(random):
    """Lists of bytes at random, most of them such as a list can have."""
    cases = []
    for number in range(120):
        states = random.choice([range(5), range(6), EDGES])
        cases.append((DRAWN, SIMPLE, bytes(random.choice(states) for _ in range(number % 30))))
    return cases


def cases(random):
    every = cut_cases() + changed_cases() + count_cases() + two_fault_cases() + early_cases() + grid()
    return every + noise_cases(random)
