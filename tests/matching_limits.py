"""Models and lists at the limits: 64 states, 512 steps, 4,096 pairs and every label. A case is two model files and a list
of pairs."""
from itertools import product

from known import bytes_of
from known_matching import LOOP, TURNS
from matching import MOST_PAIRS, list_of
from models import MOST_STATES, MOST_STEPS, SILENT, file_of

EVERY = range(MOST_STATES)

# All pairs of 64 states, and each state with itself.
ALL = list_of(product(EVERY, EVERY))
SAME = list_of((state, state) for state in EVERY)

# Each of 64 states with code 5 to itself, with eight steps to others, and with no steps.
LOOPS = [(state, 5, state) for state in EVERY]
WIDE = [(state, 5, (state + more) % MOST_STATES) for state in EVERY for more in range(8)]


def cycle(states, label=5):
    """The steps of one cycle."""
    return [(state, label, (state + 1) % states) for state in range(states)]


def with_other(steps, at, step):
    """The steps with another one in place of one of them."""
    return steps[:at] + [step] + steps[at + 1 :]


def full_cases():
    """All pairs of 64 states, which match where all states have the same labels, and don't where a single step differs, in
    one model or the other."""
    cases = []
    for steps in (LOOPS, WIDE, [], cycle(MOST_STATES, SILENT)):
        whole = file_of(MOST_STATES, steps)
        cases += [(whole, whole, ALL), (whole, whole, SAME)]
        for at in (0, len(steps) // 2, len(steps) - 1) if steps else ():
            source, label, target = steps[at]
            other = file_of(MOST_STATES, with_other(steps, at, (source, label + 1 if label < 255 else 0, target)))
            cases += [(whole, other, ALL), (other, whole, ALL), (other, other, SAME)]
    less, more = file_of(MOST_STATES, LOOPS[:-1]), file_of(MOST_STATES, LOOPS + [(63, 6, 0)])
    return cases + [(file_of(MOST_STATES, LOOPS), other, ALL) for other in (less, more)]


def cycle_cases(random):
    """Cycles of 64 states and of fewer, side by side: the starts lead to every pair of the list, and none may be missing."""
    cases = []
    for states, count in ((1, 2), (2, 2), (32, 2), (48, 3), (63, 6), (64, 4)):
        first, second = file_of(MOST_STATES, cycle(MOST_STATES)), file_of(states, cycle(states))
        turns = MOST_STATES * states
        pairs = list(dict.fromkeys((turn % MOST_STATES, turn % states) for turn in range(turns)))
        lists = [pairs, *([pair for pair in pairs if pair != gone] for gone in random.sample(pairs, count) + pairs[-1:])]
        cases += [(first, second, list_of(random.sample(some, len(some)))) for some in lists]
    return cases


def repeated_cases():
    """One pair again and again, up to 4,096 times, and another first, between them or last."""
    loop, turns = bytes_of(LOOP), bytes_of(TURNS)
    cases = [(loop, loop, bytes(2 * MOST_PAIRS)), (turns, turns, bytes([1, 1]) * MOST_PAIRS)]
    for at, pair in product((0, 2048, MOST_PAIRS - 1), ([1, 1], [0, 1])):
        cases.append((turns, turns, bytes(2 * at) + bytes(pair) + bytes(2 * (MOST_PAIRS - 1 - at))))
    return cases + [(turns, turns, bytes([1, 1]) * (MOST_PAIRS - 1) + bytes(2))]


def ladder_cases():
    """A row of states, each of which leads to the next: the last pair is the one that everything depends on."""
    cases = []
    for states in (2, 33, 63, MOST_STATES):
        row = [(state, 255, state + 1) for state in range(states - 1)]
        whole, longer = file_of(states, row), file_of(states, row + [(states - 1, 255, states - 1)])
        same = list_of((state, state) for state in range(states))
        cases += [(whole, whole, same), (whole, whole, same[:-2]), (whole, whole, same[2:])]
        cases += [(whole, longer, same), (longer, whole, same), (longer, longer, same)]
    return cases


def label_cases():
    """Every label from the start, and one of them missing, or another in its place."""
    labels = [*range(256), SILENT]
    steps = [(0, label, 1) for label in labels]
    whole, pairs = file_of(2, steps), bytes([0, 0, 1, 1])
    cases = [(whole, whole, pairs)]
    for label in (0, 1, 31, 32, 127, 128, 254, 255, SILENT):
        one = file_of(2, [(0, label, 1)])
        others = [file_of(2, [step for step in steps if step[1] != label])]
        others += [one] + [file_of(2, [(0, other, 1)]) for other in (0, 255, SILENT) if other != label]
        cases += [case for other in others for case in ((whole, other, pairs), (other, whole, pairs), (one, other, pairs))]
    return cases


def last_step_cases():
    """As many steps as there may be, of which the first, one in between or the last is another one, in one of the models."""
    cases, plain = [], file_of(3, [(0, 5, 1)])
    for at, other in product((0, 1, 255, 256, 510, 511), ((0, 6, 1), (0, 5, 2), (0, SILENT, 1), (1, 5, 1))):
        changed = file_of(3, with_other([(0, 5, 1)] * MOST_STEPS, at, other))
        cases += [(changed, plain, list_of(pairs)) for pairs in ([(0, 0), (1, 1)], [(0, 0), (1, 1), (2, 1)])]
        cases.append((plain, changed, bytes([0, 0, 1, 1])))
    return cases


def cases(random):
    return full_cases() + cycle_cases(random) + repeated_cases() + ladder_cases() + label_cases() + last_step_cases()
