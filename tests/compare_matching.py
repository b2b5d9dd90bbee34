"""Holds matching against what was typed, against itself with the models exchanged, and the greatest bisimulation against
all relations between small models and against classes of states. Says of which sorts a case is."""
from functools import cache
from itertools import chain, combinations, product
from random import Random

import known_matching
from compare import expect
from enforcing import is_bisimilar, outgoing
from matching import STARTS, greatest, is_bisimulation, is_simulation, list_of, match, read_pairs, turned
from matching_shapes import led_to
from models import SILENT, Model, Step, read_model
from rules import Refusal

# How many small models are compared.
SMALL = 150

NO = ["no, back alone fails", "no, forth alone fails", "no, for want of 0, 0 alone", "no between bisimilar models"]
NO += ["no, by pairs alone that 0, 0 never leads to"]
YES = ["yes with silent steps", "yes with pairs that 0, 0 never leads to", "yes with two states without steps"]
YES += ["yes without some pair that matches", "yes with repeated pairs", "yes with over 64 pairs"]
SORTS = NO + YES


def check_typed():
    for first, second, pairs, answer in known_matching.answers():
        expect(match(first, second, pairs) == answer, "typed", list(first), list(second), list(pairs), answer)


def check_exchanged(first, second, pairs, answer):
    """Where neither model is refused, the models exchanged with the list turned around have the same answer."""
    if answer.startswith(("first", "second")):
        return
    around = bytes(pairs[at ^ 1] if at ^ 1 < len(pairs) else pairs[at] for at in range(len(pairs)))
    expect(match(second, first, around) == answer, "exchanged", list(first), list(second), list(pairs), answer)


def relations(first, second):
    """Every set of pairs between two models."""
    every = list(product(range(first.states), range(second.states)))
    return map(set, chain.from_iterable(combinations(every, count) for count in range(len(every) + 1)))


def small_model(random):
    states = random.randrange(1, 4)
    steps = [(random.randrange(states), random.choice([5, 5, SILENT]), random.randrange(states)) for _ in range(random.randrange(6))]
    return Model(states, tuple(Step(*step) for step in steps))


def check_greatest():
    """All bisimulations between small models make the greatest one, which has the starts exactly where the models are
    bisimilar. Says in how many pairs of models they are."""
    random, found = Random("small matching"), 0
    for _ in range(SMALL):
        first, second = small_model(random), small_model(random)
        every = [pairs for pairs in relations(first, second) if is_bisimulation(first, second, pairs)]
        expect(greatest(first, second) == set().union(*every), "all bisimulations", first, second)
        expect((STARTS in greatest(first, second)) == is_bisimilar(first, second), "classes", first, second)
        found += is_bisimilar(first, second)
    return found


@cache
def check_models(first, second):
    """The list of the greatest bisimulation between two models matches them exactly where they are bisimilar."""
    one, other = read_model(first), read_model(second)
    if not isinstance(one, Refusal) and not isinstance(other, Refusal):
        answer = match(first, second, list_of(sorted(greatest(one, other))))
        expect(answer == ("yes" if is_bisimilar(one, other) else "no"), "the greatest bisimulation", list(first), list(second))


def no_sorts(first, second, pairs):
    forth, back = is_simulation(first, second, pairs), is_simulation(second, first, turned(pairs))
    led = set(led_to(first, second, pairs, STARTS)) if STARTS in pairs else set()
    are = [forth and not back, back and not forth, forth and back and len(pairs) > 0, is_bisimilar(first, second)]
    are.append(led != pairs and STARTS in led and is_bisimulation(first, second, led))
    return [sort for sort, is_one in zip(NO, are, strict=True) if is_one]


def yes_sorts(first, second, pairs, listed):
    steps, others = outgoing(first), outgoing(second)
    are = [any(label == SILENT for state, _ in pairs for label, _ in steps[state])]
    are.append(set(led_to(first, second, pairs, STARTS)) != pairs)
    are.append(any(steps[state] == others[other] == [] for state, other in pairs))
    are += [pairs != greatest(first, second), len(pairs) < listed, len(pairs) > 64]
    return [sort for sort, is_one in zip(YES, are, strict=True) if is_one]


def sorts_of(first, second, pairs, answer):
    """The answer without the place of a refusal, and of which sorts a yes or a no is."""
    yield answer.split(" at ")[0]
    if answer in ("yes", "no"):
        one, other = read_model(first), read_model(second)
        found = read_pairs(pairs, one, other)
        yield from yes_sorts(one, other, found, len(pairs) // 2) if answer == "yes" else no_sorts(one, other, found)
