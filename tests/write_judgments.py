"""Writes what the test program `judgments` reads and what it must answer, from the Python alone: from satisfaction,
which is held against violation, against the table of the Python equations, and against all that demand 3 says.

Each case on its standard input is a table's size, three bytes, a limit, eight bytes, and a rule's length and a model's, three bytes
each, all highest first, and then the two files. Each case has one line on its standard output. With --check nothing is written, and the
files are compared with what would be.
"""
from collections import Counter

import compare_models
import model_cases
import stream_cases
from compare import check_patterns, expect
from compare_models import BY_SILENCE
from equations import CODES, DESK, rows, within
from expected import digest, eight_bytes, fresh_table, is_check, settle, table_digest, three_bytes, told
from judging import judge
from models import MOST_STATES, MOST_STEPS, Model, read_model
from rules import Refusal

# In so many cases at least silent steps have to decide.
LEAST_BY_SILENCE = 800

# In so many at least each of the rule, the table and the model has to be refused by itself or not, in all eight ways.
LEAST_REFUSED = 30


# In so many at least there has to be each of these.
LEAST = 5
SORTS = [f"{answer} with 64 states under 1000 equations" for answer in ("meets", "breaks")]
SORTS += ["breaks in equation 255", "breaks in an equation over 255", "9 within a limit alone", "refused 9"]


def reading_of(data):
    """What reading says of a model file, and the model that it hands back: the states, the number of steps, and the
    digest of 512 steps, each as from, two bytes of label, and to. What isn't filled is 0, and all of it where the file
    is refused."""
    answer = read_model(data)
    is_refused = isinstance(answer, Refusal)
    model = Model(0, ()) if is_refused else answer
    steps = b"".join(bytes([step.source, *divmod(step.label, 256), step.target]) for step in model.steps)
    said = str(answer) if is_refused else "accepted"
    return f"{said} {model.states} {len(model.steps)} {digest(steps.ljust(4 * MOST_STEPS, bytes(1)))}"


def refused_parts(size, rule, model):
    """Which parts of a case are refused by themselves: a table of less than a row is one for any rule."""
    counted = rows(rule)
    is_refused = isinstance(counted, Refusal)
    too_small = size < (CODES if is_refused else CODES * len(counted))
    parts = {"rule": is_refused, "table": too_small, "model": isinstance(read_model(model), Refusal)}
    return " and ".join(part for part, is_so in parts.items() if is_so) or "none"


def sorts_of(rule, model, answer, drop):
    """What a judgment under many equations is counted as."""
    if answer in ("meets", "breaks") and len(rows(rule)) == DESK.most and read_model(model).states == MOST_STATES:
        yield f"{answer} with 64 states under 1000 equations"
    if drop is not None and drop.equation >= 255:
        yield "breaks in equation 255" if drop.equation == 255 else "breaks in an equation over 255"


def judged_words(case, terms, size, rule, model):
    """What is judged on these terms, and the table then."""
    table = fresh_table(size, case)
    return [judge(rule, model, table, terms), str(table_digest(table))]


def input_of(limit, size, rule, model):
    return three_bytes(size) + eight_bytes(limit) + three_bytes(len(rule)) + three_bytes(len(model)) + rule + model


def main():
    checks = is_check(__doc__)
    compared = compare_models.check(stream_cases.rule_files())
    cases = model_cases.cases()
    limits = [model_cases.limit_for(case, rule) for case, (_, rule, _) in enumerate(cases)]
    lines, judged, tally, latest = [], [], Counter(), 0
    for case, (size, rule, model) in enumerate(cases):
        answer, *words = judged_words(case, DESK, size, rule, model)
        words += ["within", *judged_words(case, within(limits[case]), size, rule, model)]
        lines.append(" ".join([reading_of(model), answer, *words]))
        tally[answer.split(" at ")[0]] += 1
        tally["9 within a limit alone"] += "refused 9" in words[2] and answer in ("meets", "breaks")
        if answer in ("meets", "breaks"):
            judged.append(rule)
        drop = compare_models.check_answer(rule, model, answer)
        tally.update(sorts_of(rule, model, answer, drop))
        if drop is not None:
            tally[BY_SILENCE] += compare_models.is_by_silence(rule, model)
            latest = max(latest, drop.place)
    expect(tally[BY_SILENCE] >= LEAST_BY_SILENCE and all(tally[sort] >= LEAST for sort in SORTS), told(tally))
    parts = Counter(refused_parts(*case) for case in cases)
    expect(len(parts) == 8 and min(parts.values()) >= LEAST_REFUSED, told(parts))
    check_patterns(judged)
    settle("judgments", b"".join(input_of(limit, *case) for limit, case in zip(limits, cases)), lines, checks)
    print(f"small models compared: {told(compared)}")
    print(f"{len(cases)} cases: {told(tally)}; the latest break is at pair {latest}")
    print(f"refused by themselves: {told(parts)}")


if __name__ == "__main__":
    main()
