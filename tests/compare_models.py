"""Holds satisfaction, violation and the table against each other on small models: which of them break a rule, and all
that demand 3 says of the model behind the monitor. What was typed is held against reading and judging."""
from collections import Counter
from random import Random

import known_models
from compare import Disagreement, expect
from enforcing import first_drop, is_bisimilar, monitored, walk_ends
from equations import LARGEST_TABLE, can_drop, entries_of, rows
from expected import fresh_table
from judging import judge
from models import read_model
from model_shapes import drawn_models
from model_silence import models_for, without_silent
from rules import read_rule
from satisfaction import satisfies
from sifting import Sifting, kept
from violation import violates

# Walks are tried up to so many steps, or until there are over so many of one length.
LENGTH = 7
MOST_WALKS = 60

# The models that break a rule by silent steps alone, in a tally.
BY_SILENCE = "breaks by silent steps alone"


def check_typed():
    """What was typed is what judging and reading say. Judging leaves a table that just fits with the rows alone, and each
    entry where it refuses."""
    for rule, model, answer in known_models.judged():
        expect(judge(rule, model, fresh_table(LARGEST_TABLE, 0)) == answer, "typed judgment", list(rule), list(model), answer)
        check_pair(rule, model)
    for rule, model, size, answer in known_models.fitting():
        table = fresh_table(size, 0)
        expect(judge(rule, model, table) == answer, "just fit", list(rule), list(model), answer)
        expect(table == entries_of(rows(rule)), "the rows alone", list(rule))
    for model, line in known_models.refused():
        expect(str(read_model(model)) == line, "typed refusal", list(model), line)
    for rule, model, size, line in known_models.ordered():
        table = fresh_table(size, 0)
        expect(judge(rule, model, table) == line, "typed order", list(rule), list(model), line)
        expect(table == fresh_table(size, 0), "entries of a refused judgment", list(rule), list(model))


def check_verdict(rule, model, drop):
    """A model satisfies a rule exactly when the monitor drops no step of a walk. A walk up to the first dropped step
    violates the rule, and without that step it doesn't."""
    expect(satisfies(rule, model) == (drop is None), "satisfaction and the table", drop)
    if drop is not None:
        expect(violates(rule, drop.trace) and not violates(rule, drop.trace[:-1]), "the first drop", drop)


def check_walks(rule, model, behind, count, drop):
    """For each length up to one: the walks behind the monitor, which has so many equations, have the traces of the
    model's own walks without the dropped scans, and lead to the same phone states. Where no scan is dropped, and there
    alone, the trace doesn't violate the rule. One does exactly where the first dropped step is as near."""
    walks = walk_ends(model, LENGTH, MOST_WALKS)
    traces = {trace for level in walks for trace, _ in level}
    sifted = {trace: tuple(kept(trace, Sifting(rule).sift(trace))) for trace in traces}
    bad = {trace for trace in traces if violates(rule, trace)}
    expect(bad == {trace for trace in traces if sifted[trace] != trace}, "sifted traces", bad)
    expect(bool(bad) == (drop is not None and drop.length < len(walks)), "violating walks", bad)
    for level, level_behind in zip(walks, walk_ends(behind, len(walks) - 1, MOST_WALKS), strict=True):
        ends = {(trace, pair // count) for trace, pair in level_behind}
        expect(ends == {(sifted[trace], state) for trace, state in level}, "walks behind the monitor", ends)


def check_pair(rule_file, model_file):
    """All of the comparisons on one rule and one model. Gives the first drop, if there is one."""
    rule, model, table = read_rule(rule_file), read_model(model_file), rows(rule_file)
    behind, drop = monitored(model, table), first_drop(model, table)
    check_verdict(rule, model, drop)
    expect(satisfies(rule, behind), "satisfaction behind the monitor")
    expect(is_bisimilar(model, behind) == (drop is None), "bisimilarity", drop)
    check_walks(rule, model, behind, len(table), drop)
    return drop


def check_answer(rule_file, model_file, answer):
    """What is judged of any model is what the table says. Gives the first drop where the model breaks the rule."""
    if answer not in ("meets", "breaks"):
        return None
    drop = first_drop(read_model(model_file), rows(rule_file))
    expect(answer == ("meets" if drop is None else "breaks"), list(rule_file), list(model_file), drop)
    return drop


def is_by_silence(rule_file, model_file):
    """Whether a model that breaks a rule would meet it without its silent steps."""
    return satisfies(read_rule(rule_file), without_silent(read_model(model_file)))


def small_models(random, number, data):
    """Small models for a rule: at random, and such that silent steps decide."""
    rule, table, states = read_rule(data), rows(data), random.randrange(1, 6)
    models = drawn_models(random, rule, table, states, random.randrange(1, 3 * states + 1))
    return models + (models_for(random, number, rule, table, 5) if can_drop(table) else [])


def check(rule_files):
    """Checks what was typed, and small models for each of the rules. Tallies what was found."""
    check_typed()
    random, tally = Random("small models"), Counter()
    for number, data in enumerate(rule_files):
        for model in small_models(random, number, data):
            try:
                drop = check_pair(data, model)
            except Disagreement as disagreement:
                raise Disagreement(list(data), list(model)) from disagreement
            tally["meets" if drop is None else "breaks"] += 1
            tally[BY_SILENCE] += drop is not None and is_by_silence(data, model)
    return tally
