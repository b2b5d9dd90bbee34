"""Holds what was typed against sifting, violation and runs, and a run's scans against what is kept and dropped."""
from collections import Counter

import known_equations
import known_runs
import violation
from compare import expect
from equations import entries_of, rows
from rules import read_rule
from running import run
from sifting import Sifting


def check_typed():
    """What was typed is what sifting, violation and runs say."""
    typed = [(data, scans, bytes(dropped)) for data, scans, dropped in known_equations.verdicts()]
    for data, scans, verdicts in typed + known_runs.sifted():
        rule = read_rule(data)
        expect(Sifting(rule).sift(scans) == verdicts, "typed verdicts, by sifting", list(data), list(scans))
        expect(bytes(violation.verdicts(rule, list(scans))) == verdicts, "typed verdicts", list(data), list(scans))
        table, buffers = rows(data), [bytearray(len(scans)), bytearray(len(scans))]
        run(entries_of(table), len(table), 0, scans, *buffers)
        expect(buffers[1] == verdicts, "typed verdicts, by a run", list(data), list(scans))
    for (table, count, state, scans, *buffers), line, *after in known_runs.runs():
        buffers = [bytearray(buffer) for buffer in buffers]
        ran = run(table, count, state, scans, *buffers)
        expect(str(ran) == line, "typed run", str(ran), line)
        expect(buffers == after, "typed buffers", line, *buffers)


def check_conserved(scans, ran, output, verdicts):
    """Of a run that isn't refused: what is kept and what has verdict 1 is together what was scanned, each in order."""
    kept = [scan for scan, verdict in zip(scans, verdicts) if verdict == 0]
    dropped = [scan for scan, verdict in zip(scans, verdicts) if verdict == 1]
    expect(list(output[: ran.kept]) == kept and ran.dropped == len(dropped), "kept", list(scans))
    expect(Counter(scans) == Counter(kept) + Counter(dropped), "conserved", list(scans))
