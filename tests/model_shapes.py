"""Phone models for a rule, as a number of states and a list of steps: at random, as chains of scans, and changed."""
from enforcing import met_steps
from equations import DROPPED
from models import MOST_STATES, MOST_STEPS, SILENT, Model, Step, file_of
from sifting import Sifting
from stream_scans import candidates, steered


def some_labels(random, rule, table):
    """A few labels: codes at the edges of the rule's patterns, some of which its table can drop, and silence."""
    codes = candidates(random, rule)
    dropped = [code for code in codes if any(answers[code] is DROPPED for answers in table)]
    some = random.sample(codes, random.randrange(1, min(len(codes), 5) + 1))
    some += random.sample(dropped, min(len(dropped), random.randrange(1, 3)))
    return some + [SILENT] * random.randrange(1 + len(some))


def random_steps(random, labels, states, count):
    """Steps at random, most of which begin at a state that those before them have reached."""
    reached, steps = [0], []
    for _ in range(count):
        source = random.choice(reached) if random.randrange(8) > 0 else random.randrange(states)
        target = random.randrange(states)
        steps.append((source, random.choice(labels), target))
        reached.append(target)
    return steps


def dropped_steps(states, steps, table):
    """The steps that the monitor drops first on some walk."""
    met = met_steps(Model(states, [Step(*step) for step in steps]), table)
    return {(state, label, target) for state, _, label, target, answer in met if answer is DROPPED}


def mended(states, steps, table):
    """The steps without those that break the rule."""
    dropped = dropped_steps(states, steps, table)
    return [step for step in steps if step not in dropped]


def put_back(random, steps, whole):
    """The mended steps with one of those that were taken away, if there are any."""
    gone = [step for step in steps if step not in whole]
    return whole + random.sample(gone, min(len(gone), 1))


def changed(random, states, steps, labels):
    """The steps with one of them changed, taken away, repeated, or one put in."""
    at = random.randrange(len(steps) + 1)
    new = random.randrange(states), random.choice(labels), random.randrange(states)
    if at == len(steps) or random.randrange(3) == 0:
        return steps[:at] + [new] + steps[at:]
    source, label, target = steps[at]
    others = [[(new[0], label, target)], [(source, new[1], target)], [(source, label, new[2])], []]
    return steps[:at] + random.choice(others + [[steps[at]] * 2]) + steps[at + 1 :]


def chain(random, scans, silent):
    """A model of one long walk: its trace is the scans, and it has so many silent steps among them."""
    labels = list(scans)
    for _ in range(silent):
        labels.insert(random.randrange(len(labels) + 1), SILENT)
    return len(labels) + 1, [(state, label, state + 1) for state, label in enumerate(labels)]


def up_to_drop(random, rule, length, rate=0.3):
    """Scans up to the first that the rule drops, or so many that it keeps where none of them is dropped. The higher the
    rate, the straighter they lead there."""
    scans = steered(random, rule, length, rate)
    verdicts = Sifting(rule).sift(scans)
    return scans[: verdicts.index(1) + 1] if 1 in verdicts else scans


def renumbered(random, states, steps):
    """The same model with its states but for the start numbered in another way, and its steps in another order."""
    numbers = [0] + random.sample(range(1, states), states - 1)
    others = [(numbers[source], label, numbers[target]) for source, label, target in steps]
    return random.sample(others, len(others))


def with_unreached(random, states, steps, labels):
    """The model with another state, which has steps to it and to others and can't be reached."""
    if states == MOST_STATES:
        return states, steps
    more = [(states, label, random.randrange(states + 1)) for label in labels]
    return states + 1, steps + more


def as_file(states, steps):
    """The file of a model, of as many of its steps as fit."""
    return file_of(states, steps[:MOST_STEPS])


def drawn_models(random, rule, table, states, count):
    """A model at random, it again without what breaks the rule, and that with a step put back or changed."""
    labels = some_labels(random, rule, table)
    steps = random_steps(random, labels, states, count)
    whole = mended(states, steps, table)
    other = put_back(random, steps, whole) if random.randrange(2) else changed(random, states, whole, labels)
    return [as_file(states, some) for some in (steps, whole, other)]
