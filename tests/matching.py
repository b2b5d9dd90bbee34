"""Whether a list of pairs matches two models, from the words of C-20 alone: the refusals, and the definition of a strong
bisimulation, pair by pair and step by step. Beside it the greatest bisimulation between two models."""
from itertools import product

from enforcing import outgoing
from models import read_model
from rules import Refusal

MOST_PAIRS = 4096

# The pair of the starts.
STARTS = 0, 0


def pair_at(data, place, first, second):
    """The pair whose bytes begin at the place of a list."""
    if place + 1 == len(data):
        raise Refusal(22, len(data))
    state, other = data[place], data[place + 1]
    if state >= first.states or other >= second.states:
        raise Refusal(23, place)
    if place == 2 * MOST_PAIRS:
        raise Refusal(24, place)
    return state, other


def read_pairs(data, first, second):
    """The set of the pairs of a list between two models, or the refusal of the list."""
    try:
        return {pair_at(data, place, first, second) for place in range(0, len(data), 2)}
    except Refusal as refusal:
        return refusal


def turned(pairs):
    """The pairs the other way round."""
    return {(other, state) for state, other in pairs}


def follows(pair, steps, others, pairs):
    """Whether each step from the first state of a pair has one from the second with its label, such that the two lead to
    a pair again."""
    state, other = pair
    return all(
        any(label == same and (target, to) in pairs for same, to in others[other]) for label, target in steps[state]
    )


def followed(first, second, pairs):
    """Those of the pairs whose second state can follow the first by one step."""
    steps, others = outgoing(first), outgoing(second)
    return {pair for pair in pairs if follows(pair, steps, others, pairs)}


def is_simulation(first, second, pairs):
    """Whether the second state of each pair can follow the first, step by step."""
    return followed(first, second, pairs) == pairs


def is_bisimulation(first, second, pairs):
    return is_simulation(first, second, pairs) and is_simulation(second, first, turned(pairs))


def greatest(first, second):
    """The greatest bisimulation between two models: from all pairs of their states down, until none has to go."""
    pairs, left = None, set(product(range(first.states), range(second.states)))
    while left != pairs:
        pairs = left
        left = turned(followed(second, first, turned(followed(first, second, pairs))))
    return pairs


def list_of(pairs):
    """The list of some pairs, two bytes each."""
    return bytes(state for pair in pairs for state in pair)


def match(first, second, pairs):
    """The answer to two model files and a list of pairs: yes or no, or which of the three is refused, and how."""
    one, other = read_model(first), read_model(second)
    if isinstance(one, Refusal):
        return f"first {one}"
    if isinstance(other, Refusal):
        return f"second {other}"
    found = read_pairs(pairs, one, other)
    if isinstance(found, Refusal):
        return f"pairs {found}"
    return "yes" if STARTS in found and is_bisimulation(one, other, found) else "no"
