"""Models under rules of many equations: breaks in equation 255 or behind it alone, and 64 states under 1,000 equations."""
from equations import CODES, rows
from known import bytes_of, counted
from known_models import PAPER
from known_wide import TOO_WIDE, WIDEST, later, registers
from model_limits import register, register_models, stair_models
from model_shapes import as_file, chain, drawn_models, mended, some_labels, up_to_drop
from models import MOST_STATES, file_of
from rules import read_rule

# How many codes the rules remember that drop in their last equation alone, 255 and 511.
REMEMBERED = (8, 9)


def full_models(random, rule, table):
    """64 states, from each of which several codes lead on, with the steps that break the rule and without them."""
    labels = some_labels(random, rule, table)
    for codes in (labels, labels[:2]):
        steps = [(state, code, (state + more) % MOST_STATES) for state in range(MOST_STATES) for more, code in enumerate(codes, 1)]
        yield from [as_file(MOST_STATES, some) for some in (steps, mended(MOST_STATES, steps, table))]


def chain_models(random, rule, table):
    """A walk of which the rule drops the last scan, and the same without that."""
    states, steps = chain(random, up_to_drop(random, rule, 55), 5)
    return [file_of(states, some) for some in (steps, mended(states, steps, table))]


def pairs(random):
    """Each rule file with a model file."""
    found = []
    for m in REMEMBERED:
        data = bytes_of(register(m))
        found += [(data, model) for model in register_models(random, m, 0) + stair_models(random, m, 0)]
    for text in (later(8), later(9), counted(9), registers(27), registers(28), WIDEST):
        data = bytes_of(text)
        rule, table = read_rule(data), rows(data)
        models = [*full_models(random, rule, table), *full_models(random, rule, table), *chain_models(random, rule, table)]
        models += [model for count in (150, 300, 400) for model in drawn_models(random, rule, table, MOST_STATES, count)]
        found += [(data, model) for model in models]
    return found


def refused_cases():
    """A table of one entry too few, with a model that is refused or not, and rules of too many equations: a table's size, a rule and a model."""
    found = []
    for text in (counted(8), registers(28), WIDEST):
        size = CODES * len(rows(bytes_of(text)))
        found += [(some, bytes_of(text), model) for some in (size - 1, size) for model in (bytes_of(PAPER), bytes([16, 65]), b"")]
    return found + [(size, bytes_of(text), bytes_of(PAPER)) for text in (TOO_WIDE, registers(29)) for size in (0, 256000, 262144)]
