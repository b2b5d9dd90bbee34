"""Two models and pairs of their states. Most of the models are bisimilar: their states are copies of the states of one
model. Then a step or a pair is changed."""
from itertools import product
from typing import NamedTuple

from enforcing import outgoing
from matching import STARTS, greatest, list_of
from models import MOST_STATES, SILENT, read_model
from model_shapes import as_file, changed, with_unreached


class Drawn(NamedTuple):
    """The two models, each as its number of states and its steps, and the pairs, in the list's order."""

    first: tuple
    second: tuple
    pairs: list

    def files(self):
        return as_file(*self.first), as_file(*self.second), list_of(self.pairs)

    def models(self):
        return read_model(as_file(*self.first)), read_model(as_file(*self.second))

    def turned(self):
        """The models exchanged, and the list turned around."""
        return Drawn(self.second, self.first, [(other, state) for state, other in self.pairs])


def copied(random, states, more):
    """Of which state each state of another model is to be a copy: every state has one, and there are so many more. The
    start is a copy of the start."""
    others = [*range(1, states)] + [random.randrange(states) for _ in range(more)]
    return [0] + random.sample(others, len(others))


def split(random, steps, originals):
    """The steps of the copies: each copy has the steps of its state, to one or several copies of the target."""
    found = []
    for copy, state in enumerate(originals):
        for label, target in dict.fromkeys((label, target) for source, label, target in steps if source == state):
            ends = [end for end, original in enumerate(originals) if original == target]
            count = random.choice([1, 1, 1, random.randrange(1, len(ends) + 1)])
            found += [(copy, label, end) for end in random.sample(ends, count)]
    return random.sample(found, len(found))


def bisimilar(random, states, steps, more):
    """Two models that are split from one, with up to so many states more, and the pairs of copies of the same state."""
    one, other = (copied(random, states, random.randrange(more + 1)) for _ in range(2))
    pairs = [(a, b) for a, b in product(range(len(one)), range(len(other))) if one[a] == other[b]]
    models = [(len(originals), split(random, steps, originals)) for originals in (one, other)]
    return Drawn(*models, random.sample(pairs, len(pairs)))


def with_greatest(drawn):
    """The same models with all pairs of their greatest bisimulation."""
    return drawn._replace(pairs=sorted(greatest(*drawn.models())))


def led_to(first, second, pairs, start):
    """Those of the pairs between two models that one of them leads to, by steps of the same label to a pair again."""
    steps, others, found, seen = outgoing(first), outgoing(second), [start], {start}
    for state, other in found:
        ends = [(target, to) for (label, target), (same, to) in product(steps[state], others[other]) if label == same]
        found += [pair for pair in dict.fromkeys(ends) if pair in pairs and pair not in seen]
        seen.update(found)
    return found


def reached(random, drawn):
    """The pairs that the starts lead to alone, where these are a pair."""
    return drawn._replace(pairs=led_to(*drawn.models(), set(drawn.pairs), STARTS)) if STARTS in drawn.pairs else drawn


def elsewhere(random, drawn):
    """The pairs that some other pair leads to alone, which may be without that of the starts."""
    start = random.choice(drawn.pairs or [STARTS])
    return drawn._replace(pairs=led_to(*drawn.models(), set(drawn.pairs), start))


def without_pair(random, drawn):
    return drawn._replace(pairs=random.sample(drawn.pairs, max(len(drawn.pairs) - 1, 0)))


def with_pair(random, drawn):
    """Any two states as one pair more."""
    at, new = random.randrange(len(drawn.pairs) + 1), (random.randrange(drawn.first[0]), random.randrange(drawn.second[0]))
    return drawn._replace(pairs=drawn.pairs[:at] + [new] + drawn.pairs[at:])


def with_repeats(random, drawn):
    """Some of the pairs twice or more often, all in another order."""
    pairs = drawn.pairs + random.choices(drawn.pairs, k=random.randrange(1, 9)) if drawn.pairs else []
    return drawn._replace(pairs=random.sample(pairs, len(pairs)))


def with_steps(random, drawn, change):
    """One of the models with its steps changed so."""
    at = random.choice(["first", "second"])
    states, steps = getattr(drawn, at)
    return drawn._replace(**{at: (states, change(states, steps))})


def relabelled(random, drawn):
    """A step of one model with another label: silence for a code, a code for silence, or another code."""

    def change(states, steps):
        if not steps:
            return steps
        at = random.randrange(len(steps))
        source, label, target = steps[at]
        new = random.choice([0, 255, (label + 1) % 256]) if label == SILENT else random.choice([SILENT, (label + 1) % 256])
        return steps[:at] + [(source, new, target)] + steps[at + 1 :]

    return with_steps(random, drawn, change)


def with_step(random, drawn):
    """A step more in one model, with a label that a step of it has."""

    def change(states, steps):
        labels = [label for _, label, _ in steps] or [SILENT, 0]
        return steps + [(random.randrange(states), random.choice(labels), random.randrange(states))]

    return with_steps(random, drawn, change)


def without_step(random, drawn):
    return with_steps(random, drawn, lambda states, steps: random.sample(steps, max(len(steps) - 1, 0)))


def with_changed_step(random, drawn):
    labels = [label for _, label, _ in drawn.first[1]] or [SILENT]
    return with_steps(random, drawn, lambda states, steps: changed(random, states, steps, labels))


def with_repeated_steps(random, drawn):
    """Some steps of one model twice or more often, all in another order."""

    def change(states, steps):
        more = random.choices(steps, k=random.randrange(1, 9)) if steps else []
        return random.sample(steps + more, len(steps + more))

    return with_steps(random, drawn, change)


def with_ends(random, drawn):
    """A state without steps in each model, and a pair of the two; or of one of them and any state."""
    (states, steps), (others, more) = drawn.first, drawn.second
    if MOST_STATES in (states, others):
        return drawn
    new = random.choice([(states, others), (states, others), (states, random.randrange(others)), (random.randrange(states), others)])
    return Drawn((states + 1, steps), (others + 1, more), drawn.pairs + [new])


def with_islands(random, drawn):
    """A state that no step leads to in each model, with steps of its own, and a pair of the two."""
    labels = [label for _, label, _ in drawn.first[1]][:2] or [SILENT]
    models = [with_unreached(random, *model, labels) for model in (drawn.first, drawn.second)]
    return Drawn(*models, drawn.pairs + [(models[0][0] - 1, models[1][0] - 1)])


def exchanged(random, drawn):
    return drawn.turned()


def exchanged_alone(random, drawn):
    """The models exchanged, and the list as it was."""
    return Drawn(drawn.second, drawn.first, drawn.pairs)


# What is changed of the steps, and of anything.
STEP_CHANGES = [relabelled, with_step, without_step, with_changed_step]
CHANGES = STEP_CHANGES + [relabelled, with_step, reached, elsewhere, without_pair, without_pair, with_pair, with_pair, with_repeats]
CHANGES += [with_repeated_steps, with_ends, with_islands, exchanged, exchanged_alone]
