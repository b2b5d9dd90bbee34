"""Rules under which two models are judged beside each other: what a walk of one of them does, forbidden."""
from enforcing import outgoing
from known import bytes_of
from known_models import NEVER
from models import SILENT, read_model
from rules import SLOTS
from shapes import FALSITY, after, pattern

# The most steps of a walk.
LENGTH = 12


def trace_of(random, model):
    """The codes of a walk from the start, of so many steps or until there is none."""
    steps, state, trace = outgoing(model), 0, []
    for _ in range(random.randrange(1, LENGTH + 1)):
        if steps[state]:
            label, state = random.choice(steps[state])
            trace += [] if label == SILENT else [label]
    return trace


def forbidding(trace):
    """The rule that no walk begins with these codes: after each of them in turn, ff."""
    codes = list(dict.fromkeys(trace))
    patterns = [pattern(1 << code // SLOTS, code % SLOTS, code % SLOTS) for code in codes]
    return b"".join(patterns + [after(codes.index(code)) for code in trace]) + FALSITY if trace else bytes_of(NEVER)


def rules_for(random, first, second, own):
    """Three rules for two model files: one of their own, one that forbids a walk of the first, and one that forbids a
    walk of the second, often with another last code."""
    one, other = (trace_of(random, read_model(file)) for file in (first, second))
    last = [random.choice([5, 6, random.randrange(256)])]
    return [own, forbidding(one), forbidding(random.choice([other, other[:-1] + last, other + last]))]
