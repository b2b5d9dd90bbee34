"""Writes what the test program `card` must print, from sets of numbers. The program has no input.

With --check nothing is written, and the files are compared with what would be.
"""
from card import named, under, word
from compare import expect
from expected import is_check, settle
from known_card import SETS, WIDTHS
from rules import SLOTS, Pattern

# Widths and slots go up to 39, past the last of each, and then come some far over these.
MOST = 40
FAR_WIDTHS = [261, 4294967301, 18446744073709551615]
FAR_ENDS = [(5, 255), (255, 5), (255, 254), (254, 255)]


def check_typed_words():
    for width, typed in WIDTHS.items():
        expect(word(under(width)) == typed, "the word of width", width)
    for ends, typed in SETS.items():
        expect(word(named(*ends)) == typed, "the set of", ends)


def check_patterns():
    """The reader's own patterns, which walk round the ring, have these slots."""
    for first in range(SLOTS):
        for last in range(SLOTS):
            expect(Pattern(1, first, last).slots() == named(first, last), "the slots of", first, last)


def check_ends(ends):
    """Slot by slot the ends tell the same, and the slots under a width are those from 0 to the last one under it."""
    for first, last in ends:
        for slot in range(SLOTS):
            inside = first <= slot <= last if first <= last else slot >= first or slot <= last
            expect((slot in named(first, last)) == inside, "slot", slot, "of", first, last)
    for last in range(MOST):
        expect(under(last + 1) == named(0, last), "the slots under", last + 1)


def main():
    checks = is_check(__doc__)
    check_typed_words()
    check_patterns()
    widths = [*range(MOST), *FAR_WIDTHS]
    ends = [(first, last) for first in range(MOST) for last in range(MOST)] + FAR_ENDS
    check_ends(ends)
    lines = [f"under {width} {word(under(width))}" for width in widths]
    lines += [f"set {first} {last} {word(named(first, last))}" for first, last in ends]
    settle("card", b"", lines, checks)
    print(f"{len(widths)} widths, {len(ends)} sets")


if __name__ == "__main__":
    main()
