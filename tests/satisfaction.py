"""Which states of a model satisfy a rule, by the paper's "Meaning": sets of states, on the formula as it stands. No
equations are used, and no violation."""
from functools import cache

from models import SILENT


def closed(states, silent):
    """The states that any number of silent steps reach from some states."""
    found = list(states)
    for state in found:
        found += [target for target in silent[state] if target not in found]
    return frozenset(found)


def weak_steps(model):
    """The states that silent steps, one code and silent steps reach, by the state where they begin and the code."""
    silent = [[] for _ in range(model.states)]
    for step in model.steps:
        if step.label == SILENT:
            silent[step.source].append(step.target)
    closure = [closed([state], silent) for state in range(model.states)]
    reached = [{} for _ in range(model.states)]
    for state in range(model.states):
        for step in model.steps:
            if step.label != SILENT and step.source in closure[state]:
                reached[state].setdefault(step.label, set()).update(closure[step.target])
    return reached


@cache
def free_depths(part):
    """The depths of the variables whose max isn't in the part, 0 for the innermost of those around it."""
    if part.kind == 4:
        return free_depths(part.left) | free_depths(part.right)
    if part.kind == 5:
        return free_depths(part.body)
    if part.kind == 6:
        return frozenset(depth - 1 for depth in free_depths(part.body) if depth > 0)
    return frozenset([part.depth]) if part.kind == 7 else frozenset()


def ends(found, codes):
    """Of the states that are found under each code, those under some of the codes."""
    return frozenset().union(*[states for code, states in found.items() if code in codes])


class Satisfaction:
    """The states of a model that satisfy the parts of a rule."""

    def __init__(self, rule, model):
        self.every = frozenset(range(model.states))
        reached = weak_steps(model)
        self.after = [[ends(found, pattern.codes()) for found in reached] for pattern in rule.patterns]
        self.known = {}

    def of(self, part, values):
        """The states that satisfy a part. The variables of the maxes around it stand for these sets of states, the
        innermost first. A part is worked out once for the same sets."""
        key = part, tuple(values[depth] for depth in sorted(free_depths(part)))
        if key not in self.known:
            self.known[key] = self.worked_out(part, values)
        return self.known[key]

    def worked_out(self, part, values):
        if part.kind == 2:
            return self.every
        if part.kind == 3:
            return frozenset()
        if part.kind == 4:
            return self.of(part.left, values) & self.of(part.right, values)
        if part.kind == 5:
            after, body = self.after[part.pattern], self.of(part.body, values)
            return frozenset(state for state in self.every if after[state] <= body)
        if part.kind == 6:
            return self.greatest(part.body, values)
        return values[part.depth]

    def greatest(self, body, values):
        """The greatest fixed point of a max: from all states down, until the body gives the set back."""
        value, given = None, self.every
        while given != value:
            value, given = given, self.of(body, (given,) + values)
        return value


def satisfies(rule, model):
    """Whether the start of a model satisfies a rule."""
    return 0 in Satisfaction(rule, model).of(rule.formula, ())
