"""The rules, the models and the table sizes on which judging is tried. They are the same each time."""
from random import Random

import known_models
import known_wide
import model_faults
import model_limits
import model_silence
import model_wide
import stream_cases
from equations import CODES, PROGRAM_TABLE, PROGRAMS, can_drop, is_accepted, rows
from judging import refusal_of
from known import POOL, bytes_of
from models import MOST_STATES, SILENT
from model_shapes import as_file, chain, drawn_models, mended, put_back, random_steps, renumbered, some_labels
from model_shapes import up_to_drop, with_unreached
from rules import Refusal, read_rule


def fitting_size(rule):
    """The size of a table that the rows of a rule just fit."""
    return CODES * len(rows(rule))


def usual_size(rule):
    """Room for 128 rows, or for just as many as there are if they are more."""
    return fitting_size(rule) if is_accepted(rule) and not is_accepted(rule, PROGRAMS) else PROGRAM_TABLE


def typed_cases():
    cases = [(PROGRAM_TABLE, rule, model) for rule, model, _ in known_models.judged()]
    cases += [(PROGRAM_TABLE, bytes_of(POOL), model) for model, _ in known_models.refused()]
    return cases + [(size, rule, model) for rule, model, size, _ in known_models.fitting() + known_models.ordered()]


def chain_models(random, rule, table):
    """Walks that the rule drops the last scan of, where it drops any: with silent steps; without the last scan; and
    beside states that aren't reached."""
    scans = up_to_drop(random, rule, random.randrange(1, 30))
    labels = some_labels(random, rule, table)
    states, steps = chain(random, scans, random.randrange(20))
    whole = mended(states, steps, table)
    more = with_unreached(random, states, whole, labels)
    return [as_file(count, renumbered(random, count, some)) for count, some in ((states, steps), (states, whole), more)]


def looped_models(random, rule, table):
    """A walk that the rule keeps with other steps between its states; a step that breaks the rule put back; and all
    steps repeated."""
    scans = up_to_drop(random, rule, random.randrange(4, 20))
    states, steps = chain(random, scans, random.randrange(9))
    steps += random_steps(random, list(scans) + [SILENT] * random.randrange(9), states, random.randrange(1, 9))
    whole = mended(states, steps, table)
    again = put_back(random, steps, whole)
    return [as_file(states, some) for some in (whole, again, renumbered(random, states, again * 2))]


def models_for(random, number, data):
    """Three models for a rule. Their kind changes from rule to rule."""
    rule, table = read_rule(data), rows(data)
    if number % 5 == 0:
        return drawn_models(random, rule, table, random.randrange(1, 5), random.randrange(1, 9))
    if number % 5 == 1:
        return chain_models(random, rule, table)
    if number % 5 == 2:
        states = random.randrange(5, 30)
        return drawn_models(random, rule, table, states, random.randrange(states, 4 * states))
    if number % 5 == 3:
        return looped_models(random, rule, table)
    states = random.choice([MOST_STATES, MOST_STATES, random.randrange(30, MOST_STATES)])
    return drawn_models(random, rule, table, states, random.choice([64, 100, 200, 511, 512]))


def drawn_cases(random):
    """Models for rules of many shapes. Most tables just fit, and none is too small."""
    cases = []
    for number, data in enumerate(stream_cases.rule_files()[::2]):
        least = fitting_size(data)
        sizes = [least] * 10 + [least + 1, least + 255, PROGRAM_TABLE, PROGRAM_TABLE, 40000, 65536]
        cases += [(random.choice(sizes), data, model) for model in models_for(random, number, data)]
    return cases


def silent_cases(random):
    """Models in which silent steps decide, for the rules that can drop a scan."""
    cases = []
    for number, data in enumerate(stream_cases.rule_files()):
        if can_drop(rows(data)):
            most = random.choice([3, 6, 40])
            models = model_silence.models_for(random, number, read_rule(data), rows(data), most)
            cases += [(PROGRAM_TABLE, data, model) for model in models]
    return cases


def spoiled_cases(random, judged):
    """The models, of which some break their rule, with a fault at their end; and with or without it, an entry too few for
    the table."""
    cases = []
    for size, rule, model in judged:
        faulty = model_faults.spoiled(random, model)
        cases += [(size, rule, faulty)] + [(fitting_size(rule) - 1, rule, either) for either in (model, faulty)]
    return cases


def cases():
    """Every case, none of them twice."""
    random = Random("models")
    pool = bytes_of(POOL)
    every = typed_cases() + model_faults.grid()
    every += [(PROGRAM_TABLE, pool, model) for model in model_faults.files(random)]
    some = drawn_cases(random) + [(usual_size(rule), rule, model) for rule, model in model_limits.pairs(random)]
    some += silent_cases(random)
    every += some + spoiled_cases(random, [case for case in some[::25] if refusal_of(*case) is None])
    every += [(usual_size(rule), rule, model) for rule, model in model_wide.pairs(Random("wide models"))]
    return list(dict.fromkeys(every + model_wide.refused_cases()))


def limit_for(number, rule):
    """A limit to judge within: by turns one of those that were typed, the count of the equations, and one less."""
    limits, counted = known_wide.LIMITS, rows(rule)
    own = 0 if isinstance(counted, Refusal) else len(counted)
    return limits[number // 3 % len(limits)] if number % 3 == 0 else max(own - number % 3 + 1, 0)
