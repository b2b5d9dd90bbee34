"""Writes what the program `sift` reads and must write, and the same for the crates that run it on other input, from
the Python alone: by sifting, which goes by violation.

With --check nothing is written, and the files are compared with what would be.
"""
from random import Random

from compare import expect
from equations import PROGRAMS, listing
from expected import is_check, settle_files
from known import POOL, bytes_of
from known_equations import LONG
from rules import read_rule
from shapes import BOTH, FALSITY, MAX, after, pattern, variable
from sifting import Sifting, kept

# How many scans sift reads at most in one turn.
BLOCK = 65536

# Codes: an issue, a cancel and a note, each of slot 5, and a sync.
ISSUE, CANCEL, NOTE, SYNC = 5, 37, 197, 128


def pool_rule():
    """After a cancel of slot 5 an issue of it is dropped until the next sync, whatever is scanned in between."""
    cancel, others = pattern(2, 5, 5), pattern(253, 0, 31) + pattern(2, 0, 4) + pattern(2, 6, 31)
    issue, sync = pattern(1, 5, 5), pattern(16, 0, 31)
    rest = pattern(238, 0, 31) + pattern(1, 0, 4) + pattern(1, 6, 31)
    free = BOTH * 3 + b"".join(after(number) + variable(0) for number in (1, 2, 3)) + after(0)
    held = MAX + BOTH * 4 + after(4) + FALSITY + after(5) + variable(1)
    held += b"".join(after(number) + variable(0) for number in (6, 7, 8))
    return cancel + others + issue + sync + rest + MAX + free + held


def long_stream(random):
    """Four blocks and a bit. The first three end in a cancel of slot 5, so that the issue of it that comes then, after
    none, one or two other scans, is dropped only if the state is carried on. The fourth ends in a sync after a
    cancel, and the issue is kept."""
    scans = bytearray(random.choice((ISSUE, CANCEL, NOTE, SYNC, 0, 255)) for _ in range(4 * BLOCK + 1000))
    for block, ahead in ((1, [ISSUE]), (2, [NOTE, ISSUE]), (3, [NOTE, 0, ISSUE])):
        scans[block * BLOCK - 1] = CANCEL
        scans[block * BLOCK : block * BLOCK + len(ahead)] = ahead
    scans[4 * BLOCK - 2 : 4 * BLOCK + 1] = [CANCEL, SYNC, ISSUE]
    return bytes(scans)


def sifted(rule, scans):
    """The kept scans, and the verdicts."""
    verdicts = Sifting(read_rule(rule)).sift(scans)
    return bytes(kept(scans, verdicts)), verdicts


def check_long(scans, verdicts):
    """Typed: the issues after the ends of the first three blocks are dropped, the one after the fourth is kept."""
    places = [BLOCK, 2 * BLOCK + 1, 3 * BLOCK + 2, 4 * BLOCK]
    expect([scans[place] for place in places] == [ISSUE] * 4, "issues of the long stream")
    expect([verdicts[place] for place in places] == [1, 1, 1, 0], "verdicts of the long stream")


def main():
    checks = is_check(__doc__)
    paper, scans = bytes_of(POOL), bytes([37, 5, 128, 5, 37, 5])
    expect(sifted(paper, scans)[0] == bytes([37, 128, 5, 37, 5]), "the paper's scans")
    settle_files("sift", {"data/rule.bin": paper, "stdin": scans, "stdout": bytes([37, 128, 5, 37, 5])}, checks)
    settle_files("sift_missing", {"stdin": scans, "stdout": b"refused 1 at 0\n"}, checks)
    longer, line = bytes_of(LONG), b"refused 2 at 256\n"
    expect(listing(longer, PROGRAMS) == line.decode(), "the long rule")
    settle_files("sift_refused", {"data/rule.bin": longer, "stdin": scans, "stdout": line}, checks)
    rule, scans = pool_rule(), long_stream(Random("sift"))
    written, verdicts = sifted(rule, scans)
    check_long(scans, verdicts)
    settle_files("sift_long", {"data/rule.bin": rule, "stdin": scans, "stdout": written}, checks)
    print(f"{len(scans)} scans in the long stream, {len(written)} kept")


if __name__ == "__main__":
    main()
