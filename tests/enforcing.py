"""Brute force on demand 3: the model behind the monitor, strong bisimilarity, walks one by one, and the first drop."""
from dataclasses import dataclass

from equations import DROPPED
from models import SILENT, Model, Step


def monitored(model, table):
    """The model behind the monitor whose rows are given. The pair of phone state s and equation e is the state
    s × count + e, so that the start is 0 here too."""
    count, steps = len(table), []
    for step in model.steps:
        for equation, answers in enumerate(table):
            answer = DROPPED if step.label == SILENT else answers[step.label]
            label, then = (SILENT, equation) if answer is DROPPED else (step.label, answer)
            steps.append(Step(step.source * count + equation, label, step.target * count + then))
    return Model(model.states * count, tuple(steps))


def outgoing(model):
    """The steps from each state, as pairs of label and target."""
    steps = [[] for _ in range(model.states)]
    for step in model.steps:
        steps[step.source].append((step.label, step.target))
    return steps


def is_bisimilar(one, other):
    """Whether two models are strongly bisimilar from their starts. All states of both begin in one class; classes are
    split by the labels and the classes of the steps from their states, until none is split any more."""
    steps = outgoing(one) + [[(label, one.states + to) for label, to in out] for out in outgoing(other)]
    classes, number = [0] * len(steps), 1
    while True:
        kinds = [(classes[s], frozenset((label, classes[to]) for label, to in out)) for s, out in enumerate(steps)]
        numbers = {kind: n for n, kind in enumerate(dict.fromkeys(kinds))}
        classes = [numbers[kind] for kind in kinds]
        if len(numbers) == number:
            return classes[0] == classes[one.states]
        number = len(numbers)


def walk_ends(model, length, most):
    """The traces of walks with the states where these end, by how many steps a walk has: up to the length, or until
    there are over so many of one length."""
    steps, levels = outgoing(model), [{((), 0)}]
    while len(levels) <= length and len(levels[-1]) <= most:
        level = set()
        for trace, state in levels[-1]:
            level |= {(trace if label == SILENT else trace + (label,), to) for label, to in steps[state]}
        levels.append(level)
    return levels


def met_steps(model, table):
    """The steps that the monitor meets, breadth first from the start, on walks of which it has dropped no step before:
    the state and the equation where it meets them, their label and target, and the answer."""
    steps, found = outgoing(model), [(0, 0)]
    seen = set(found)
    for state, equation in found:
        for label, target in steps[state]:
            answer = equation if label == SILENT else table[equation][label]
            yield state, equation, label, target, answer
            if answer is not DROPPED and (target, answer) not in seen:
                seen.add((target, answer))
                found.append((target, answer))


@dataclass(frozen=True)
class Drop:
    """A shortest walk whose last step the monitor drops: its trace, how many steps it has, and the equation before the last. The place is that of the
    pair of state and equation before the last step, among all pairs in the order in which they are found, from 1.
    Nearer says how many pairs are fewer steps away: in any order of the steps they are found before it."""

    trace: tuple
    length: int
    equation: int
    place: int
    nearer: int


def labels_to(pair, before):
    """The labels on the way to a pair, given the pair before each and the label between the two."""
    labels = []
    while pair in before:
        pair, label = before[pair]
        labels.append(label)
    return labels[::-1]


def first_drop(model, table):
    """The drop that is met first, or None."""
    lengths, before = {(0, 0): 0}, {}
    for state, equation, label, target, answer in met_steps(model, table):
        pair, then = (state, equation), (target, answer)
        if answer is DROPPED:
            labels = labels_to(pair, before) + [label]
            trace = tuple(label for label in labels if label != SILENT)
            nearer = sum(length < lengths[pair] for length in lengths.values())
            return Drop(trace, len(labels), equation, list(lengths).index(pair) + 1, nearer)
        if then not in lengths:
            lengths[then], before[then] = lengths[pair] + 1, (pair, label)
    return None
