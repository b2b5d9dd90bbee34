"""Rules and models at the limits: late breaks, all pairs of state and equation, the last step, the last code, and rules
of about 128 equations."""
from compare import expect
from enforcing import first_drop
from equation_shapes import counters, drawn, limit_rules
from equations import rows
from known import ANY, ONE, SIX, bytes_of, counted
from known_equations import late
from known_models import NEVER, PAPER
from models import MOST_STATES, MOST_STEPS, SILENT, file_of, read_model
from model_shapes import drawn_models, renumbered
from rules import Refusal, read_rule
from shapes import BOTH, FALSITY, MAX, after, pattern, variable


def cycle_rule(length):
    """Any codes for ever, but at every place that is a multiple of the length no code 5."""
    last = BOTH + after(0) + variable(0) + after(1) + FALSITY
    return bytes_of(ANY + ONE) + MAX + after(0) * (length - 1) + last


def cycle_models(states):
    """Cycles of so many states. At one of these, the last or another, stands a step with code 5 too, at once or between
    two silent steps."""
    cycle = [(state, 9, (state + 1) % states) for state in range(states)]
    for at in (states - 1, states // 2):
        yield file_of(states, cycle + [(at, 5, 0)])
        if states <= MOST_STATES - 2:
            around = [(at, SILENT, states), (states, 5, states + 1), (states + 1, SILENT, 0)]
            yield file_of(states + 2, cycle + around)


def cycle_pairs():
    """A cycle of a model beside one of a rule: they come together after as many steps as both have multiplied, or
    earlier, or never."""
    sizes = [(57, states) for states in (1, 2, 19, 38, 56, 57, 58, 63, 64)]
    sizes += [(2, 64), (3, 64), (3, 63), (58, 64), (1, 1)]
    return [(cycle_rule(length), model) for length, states in sizes for model in cycle_models(states)]


def ladder_pairs():
    """So many codes and then ff, or tt, beside chains of one code less, as many, and one more, and beside loops."""
    found = []
    for length in (1, 2, 31, 62, 63):
        sizes = [n for n in (length - 1, length, length + 1) if n < MOST_STATES]
        models = [file_of(n + 1, [(state, 255, state + 1) for state in range(n)]) for n in sizes]
        models += [file_of(1, [(0, 0, 0)]), file_of(2, [(0, 7, 1), (1, SILENT, 0)]), file_of(1, [(0, SILENT, 0)])]
        for end in (2, 3):
            found += [(bytes_of(ANY) + after(0) * length + bytes([end]), model) for model in models]
    return found


def register(m):
    """The last m codes tell apart 2^m equations, by which of them were 5. Only after m of 5 is a 6 dropped, in the last."""
    return ANY + ONE + SIX + "6 4 5 0 7 0 4 5 1 " + "5 0 " * m + "2 " + "5 1 " * m + "5 2 3"


def register_models(random, m, times):
    """A cycle of 64 states, from each of which a 9 and a 5 lead on: every pair of a state and an equation of the rule
    above is reached. Under the last equation state m - 1 is among the last, and so its 6 breaks the rule late. Where every
    m-th state has no 5, no 6 breaks it."""
    several = []
    for codes in ((9, 5), (5, 9)):
        cycle = [(state, code, (state + 1) % MOST_STATES) for state in range(MOST_STATES) for code in codes]
        sparse = [step for step in cycle if step[0] % m > 0 or step[1] == 9]
        many = [(state, 6, 0) for state in range(MOST_STATES)]
        several += [cycle, sparse, sparse + many, cycle + many]
        several += [cycle + [(at, 6, 0)] for at in (0, m - 2, m - 1, m, 63)]
    return files_of(random, several, times)


def stair_models(random, m, times):
    """64 states in a row, from each of which a 9 leads to the next and a 5 back to itself. Again every pair is reached.
    The last state with the last equation is further away than any other pair, and only there a 6 is dropped: whatever order
    the steps are taken in, the last pair of all is the first that shows the break."""
    last = MOST_STATES - 1
    stairs = [(0, 9, 0)] + [(state, 5, state) for state in range(MOST_STATES)]
    stairs += [(state, 9, state + 1) for state in range(last)]
    both = stairs + [(state, SILENT, state + 1) for state in range(last)]
    breaking = [steps + [(last, 6, last)] for steps in (stairs, both, stairs[::-1], both[::-1])]
    files = files_of(random, breaking, times)
    for file in files:
        drop = first_drop(read_model(file), rows(bytes_of(register(m))))
        expect(drop.nearer + 1 == drop.place == MOST_STATES * 2**m and drop.equation == 2**m - 1, "the last pair", drop)
    return files + files_of(random, [stairs, both], 0)


def files_of(random, several, times):
    """The files of models of 64 states: as their steps stand, and so many times each renumbered, in other orders."""
    files = [file_of(MOST_STATES, steps) for steps in several]
    others = [renumbered(random, MOST_STATES, steps) for steps in several for _ in range(times)]
    return files + [file_of(MOST_STATES, steps) for steps in others]


def last_step_pairs():
    """As many steps as there may be, of which the first, one in between or the last breaks the rule."""
    found = []
    for kept, breaking in (((0, 9, 1), (0, 5, 1)), ((0, SILENT, 1), (1, 5, 0)), ((1, 5, 0), (0, SILENT, 1))):
        for at in (0, 1, 255, 256, 510, 511, 512):
            steps = [kept] * MOST_STEPS
            steps[at : at + 1] = [breaking]
            found.append((bytes_of(NEVER), file_of(2, steps[:MOST_STEPS])))
    return found


def code_pairs():
    """Every code that a pattern doesn't cover, and one that it does. One of the patterns is empty."""
    found = []
    for mask, first, last in ((170, 3, 20), (128, 31, 31), (1, 0, 0), (127, 0, 31), (254, 0, 31), (85, 30, 2), (3, 31, 0), (0, 3, 20)):
        rule = pattern(mask, first, last) + after(0) + FALSITY
        covered = sorted(read_rule(rule).patterns[0].codes())
        others = [(0, code, 63) for code in range(256) if code not in covered]
        for some in [[]] + [[covered[at]] for at in (0, -1, len(covered) // 2) if covered]:
            found.append((rule, file_of(64, others + [(0, code, 63) for code in some])))
    return found


def large_rules(random):
    """Rules of about 128 equations, some of which drop codes, and of more."""
    dropping = [bytes_of(ANY + ONE + SIX + "6 4 5 0 7 0 5 1 " + "5 0 " * m + "5 2 3") for m in (5, 6, 7)]
    others = [bytes_of(late(n)) for n in (26, 27, 28)] + [bytes_of(counted(m)) for m in (6, 7, 8)]
    return dropping * 3 + others + limit_rules(random)[9::4] + drawn(random, counters, 30)


def large_pairs(random):
    """Models of many sizes under large rules. Where the rule is refused, the model may be too."""
    found = []
    for data in large_rules(random):
        if isinstance(rows(data), Refusal):
            models = [bytes_of(PAPER), b"", bytes([16, 1, 19])]
        else:
            states = random.choice([1, 2, 5, 20, MOST_STATES])
            models = drawn_models(random, read_rule(data), rows(data), states, random.choice([states, 2 * states]))
        found += [(data, model) for model in models]
    return found


def pairs(random):
    """Each rule file with a model file."""
    found = cycle_pairs() + ladder_pairs()
    found += [(bytes_of(register(7)), model) for model in register_models(random, 7, 2) + stair_models(random, 7, 3)]
    return found + last_step_pairs() + code_pairs() + large_pairs(random)
