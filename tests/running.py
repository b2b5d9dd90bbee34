"""A run over any table, by the paper's "Running": its refusals, what it returns, and what it writes."""
from dataclasses import dataclass

from equations import CODES, DESK
from rules import Refusal


@dataclass(frozen=True)
class Ran:
    """What a run returns. Where it isn't refused, the refusal is None."""

    refusal: object
    state: int
    kept: int
    dropped: int

    def __str__(self):
        answer = "fit" if self.refusal is None else str(self.refusal)
        return f"{answer} {self.state} {self.kept} {self.dropped}"


def is_short(scans, output, verdicts):
    """The condition of 15."""
    return len(output) < len(scans) or len(verdicts) < len(scans)


def is_unfit(table, count, state, terms=DESK):
    """The condition of 16."""
    rows = CODES * count
    if not 1 <= count <= terms.most or state >= count or len(table) < rows:
        return True
    return any(entry >= count and entry != terms.mark for entry in set(table[:rows]))


def run(table, count, state, scans, output, verdicts, terms=DESK):
    """The two buffers are changed in place."""
    if is_short(scans, output, verdicts):
        return Ran(Refusal(15, 0), state, 0, 0)
    if is_unfit(table, count, state, terms):
        return Ran(Refusal(16, 0), state, 0, 0)
    kept = 0
    for place, scan in enumerate(scans):
        entry = table[CODES * state + scan]
        verdicts[place] = entry == terms.mark
        if entry != terms.mark:
            output[kept] = scan
            kept += 1
            state = entry
    return Ran(None, state, kept, len(scans) - kept)
