"""The models, the lists of pairs and the rules on which matching is tried. They are the same each time."""
from random import Random

import known_matching
import matching_faults
import matching_limits
import stream_cases
from equations import rows
from known import POOL, bytes_of
from known_models import NEVER, TWICE, UNTIL
from known_runs import SECOND
from matching_shapes import CHANGES, STEP_CHANGES, bisimilar, with_greatest
from model_shapes import mended, random_steps, some_labels
from rules import read_rule

# The rules of cases whose models are made for no rule, by turns.
RULES = [bytes_of(text) for text in (NEVER, POOL, UNTIL, SECOND, TWICE)]

# How many of the changes are tried on two models.
SOME = 9


def base_of(random, number, data):
    """A model for a rule, from small ones to large ones, which every second time meets it; and how many states more each
    of the models may have that are split from it."""
    rule, table = read_rule(data), rows(data)
    states = [random.randrange(1, 4), random.randrange(2, 8), random.randrange(4, 16), random.randrange(16, 32)][number % 4]
    steps = random_steps(random, some_labels(random, rule, table), states, random.randrange(states, 3 * states + 2))
    return states, mended(states, steps, table) if number // 4 % 2 else steps, random.choice([1, states, min(2 * states, 32)])


def drawn_cases(random):
    """Two models that are split from one with the pairs of equal copies and with all that match, and several times changed."""
    cases = []
    for number, data in enumerate(stream_cases.rule_files()[::7]):
        drawn = bisimilar(random, *base_of(random, number, data))
        two = [drawn, with_greatest(drawn)]
        some = two + [change(random, random.choice(two)) for change in random.sample(CHANGES, SOME)]
        some.append(with_greatest(random.choice(STEP_CHANGES)(random, drawn)))
        cases += [(*each.files(), data) for each in some]
    return cases


def cases():
    """Every case, none of them twice: two model files, a list, and a rule."""
    random = Random("matching")
    every = [case for *case, _ in known_matching.answers()]
    every += matching_faults.cases(random) + matching_limits.cases(random)
    some = [(*case, RULES[number % len(RULES)]) for number, case in enumerate(dict.fromkeys(map(tuple, every)))]
    return list({case[:3]: case for case in some + drawn_cases(random)}.values())
