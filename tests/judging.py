"""A judgment by the paper's words: its refusals, whether the model satisfies the rule, and the table as it is left."""
from functools import cache

from equations import CODES, DESK, fill, rows
from models import read_model
from rules import Refusal, read_rule
from satisfaction import satisfies


def refusal_of(size, rule, model, terms=DESK):
    """The refusal of a judgment with a table of so many entries, or None: of the rule, then of the table, then of the model."""
    counted = rows(rule, terms)
    if isinstance(counted, Refusal):
        return counted
    if size < CODES * len(counted):
        return Refusal(10, 0)
    found = read_model(model)
    return found if isinstance(found, Refusal) else None


@cache
def is_met(rule, model):
    return satisfies(read_rule(rule), read_model(model))


def judge(rule, model, table, terms=DESK):
    """The answer on a rule file and a model file. The lent table is changed in place, as filling changes it."""
    refusal = refusal_of(len(table), rule, model, terms)
    if refusal is not None:
        return str(refusal)
    fill(rule, table, terms)
    return "meets" if is_met(rule, model) else "breaks"
