"""Phone models in which silent steps decide: with them a rule is broken, and without them it is met. Beside each stand
models that are much like it, most of which meet the rule."""
from models import MOST_STATES, SILENT, Model
from model_shapes import as_file, chain, dropped_steps, mended, put_back, random_steps, renumbered, some_labels
from model_shapes import up_to_drop
from stream_scans import candidates

# How often a model is drawn at most until one fits.
TRIES = 40


def without_silent(model):
    """The model without its silent steps."""
    return Model(model.states, tuple(step for step in model.steps if step.label != SILENT))


def chain_base(random, rule, length):
    """A walk up to the first scan that the rule drops, and a state before a scan of it: before the first, before the
    last, or before any."""
    scans = up_to_drop(random, rule, length, random.choice([0.3, 1, 1]))
    return *chain(random, scans, 0), random.choice([0, len(scans) - 1, random.randrange(len(scans))])


def drawn_base(random, rule, table, states, count):
    """Steps at random, of which one breaks the rule, if such are found, and the state where that one begins."""
    for _ in range(TRIES):
        steps = random_steps(random, some_labels(random, rule, table), states, count)
        some = put_back(random, steps, mended(states, steps, table))
        sources = sorted(source for source, _, _ in dropped_steps(states, some, table))
        if sources:
            break
    return states, some, random.choice(sources or [0])


def run_at(random, states, steps, at):
    """The steps with a run of silent ones put in: it begins at that state, and the other steps from the state now begin
    where it ends. Gives the new number of states, the other steps, and the run."""
    length = min(random.choice([1, 1, 2, 3, 9]), MOST_STATES - states)
    places = [at] + list(range(states, states + length))
    others = [(places[-1] if source == at else source, label, target) for source, label, target in steps]
    return states + length, others, [(source, SILENT, target) for source, target in zip(places, places[1:])]


def near_runs(random, rule, run):
    """The run, whole; with one of its steps missing or the other way round; and with a code in place of silence."""
    at = random.randrange(len(run))
    source, _, target = run[at]
    code = random.choice([0, random.choice(candidates(random, rule))])
    ways = [[(source, SILENT, target)], random.choice([[], [(target, SILENT, source)]]), [(source, code, target)]]
    return [run[:at] + way + run[at + 1 :] for way in ways]


def run_models(random, rule, states, steps, at):
    """A model with a run of silent steps at a state, and with the runs that are near to it."""
    count, others, run = run_at(random, states, steps, at)
    return [as_file(count, renumbered(random, count, others + near)) for near in near_runs(random, rule, run)]


def shortcut_models(random, rule, table, states, count):
    """A model that meets the rule, and it with one silent step more by which it breaks the rule, if one is found."""
    for _ in range(TRIES):
        steps = random_steps(random, some_labels(random, rule, table), states, count)
        whole = mended(states, steps, table)
        longer = whole + [(random.randrange(states), SILENT, random.randrange(states))]
        if dropped_steps(states, longer, table):
            return [as_file(states, renumbered(random, states, some)) for some in (whole, longer)]
    return []


def models_for(random, number, rule, table, most):
    """Two or three models for a rule, or none where none are found. They have at most so many states, and as many as a
    run of silent steps adds. Their kind changes from rule to rule."""
    if number % 3 == 0:
        return run_models(random, rule, *chain_base(random, rule, most - 1))
    states = random.randrange(2, most + 1)
    count = random.randrange(states, 3 * states + 1)
    if number % 3 == 1:
        return run_models(random, rule, *drawn_base(random, rule, table, states, count))
    return shortcut_models(random, rule, table, states, count)
