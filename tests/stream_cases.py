"""The rules and the tables on which runs are tried. They are the same each time."""
from random import Random

import empty_pairs
import known_runs
import stream_wide
import table_cases
from compare import Disagreement, expect
from equations import PROGRAMS, can_drop, rows
from expected import lacking
from known import ANY, ONE, POOL, bytes_of, counted
from known_equations import BRANCHES
from rules import Refusal
from stream_plays import RATES, play_every_way, play_foreign, play_long, play_next_row, play_pair, play_refused_rule, play_rule
from stream_script import Script
from stream_sorts import LEAST, SORTS

# One file for each refusal of a rule, but for the one that is about the table.
REFUSED = ["", "0", "2 2", ANY + "5 0 " * 64 + "2", "1 1 32 5 2", "7 0", "6 7 0", "3", counted(10)]

# Counts of the tables of no rule.
COUNTS = [1] * 8 + [2] * 8 + [3, 4, 5, 7, 8, 16, 31, 64, 127, 128, 128]

# Rules with long streams. The last drops every scan after a first 5.
LONG = [(POOL, 3000), (known_runs.SECOND, 65536), (ANY + ONE + "6 4 5 0 7 0 5 1 5 0 3", 5000)]


def rule_files():
    """Rules of up to 128 equations: those that can drop a scan, some that can't, and some with necessities of empty patterns."""
    every = [(data, rows(data, PROGRAMS)) for data in table_cases.files()]
    accepted = [(data, table) for data, table in every if not isinstance(table, Refusal)]
    dropping = [data for data, table in accepted if can_drop(table)]
    others = [data for data, table in accepted if not can_drop(table)]
    return dropping + others[::8] + [one for one, _ in empty_pairs.pairs()[::2]]


def play_typed(script):
    """The runs that were typed, in the buffers of the program."""
    for (table, count, state, scans, output, verdicts), line, *_ in known_runs.runs():
        script.write_runs(0, table)
        script.set_count(count)
        script.set_state(state)
        ran, _, _ = script.call(scans, len(table), len(output), len(verdicts))
        expect(str(ran) == line, "typed run", line)


def whole_script():
    random, script = Random(5), Script()
    play_typed(script)
    for number, data in enumerate(rule_files()):
        try:
            play_rule(random, script, number, data)
        except Disagreement as disagreement:
            raise Disagreement(list(data)) from disagreement
    for number, pair in enumerate(empty_pairs.pairs()):
        play_pair(random, script, number, pair)
    for text in (POOL, known_runs.SECOND, BRANCHES):
        play_every_way(random, script, bytes_of(text))
        play_next_row(random, script, bytes_of(text))
        for refused in REFUSED:
            play_refused_rule(random, script, bytes_of(text), bytes_of(refused))
    for text, length in LONG:
        play_long(random, script, bytes_of(text), length)
    for count in COUNTS:
        play_foreign(random, script, count, random.choice(RATES))
    stream_wide.play(Random("wide streams"), script)
    too_few = lacking(script.tally, SORTS, LEAST)
    expect(too_few == [], "too few", too_few)
    return script
