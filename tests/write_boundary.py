"""Writes what the test program `boundary_calls` must print, from what is typed here and held against the Python.

With --check nothing is written, and the files are compared with what would be.
"""
from array import array

from compare import expect
from equations import PAGE, fill, rows
from expected import is_check, settle
from judging import judge
from known import ANY, ONE, POOL, bytes_of, counted
from known_models import MEETING, PAPER
from matching import match
from merging import fill_short, short_rows
from reasons import KEPT, by_violation
from rules import Refusal
from running import run

# A rule with an unguarded variable, one with over 1,000 equations, one with 256, one with 32, which are as many as the rule page shows, and one with 33, as its first
# doesn't come again; one with an ff each for codes 5 and 37, one that after either code drops 37, a model that is cut short inside its first step, and the
# paper's scans.
UNGUARDED = "6 7 0"
MANY = counted(10)
PAST_BYTES = counted(8)
FULL_PAGE = counted(5)
OVER_PAGE = FULL_PAGE.replace(ANY + ONE, ANY + ONE + "4 5 0 2 ")
EITHER = "1 1 5 5 1 2 5 5 4 5 0 3 5 1 3"
ALIKE = "1 1 5 5 1 2 5 5 4 5 0 5 1 3 5 1 5 1 3"
CUT = "16 2 17 0"
SCANS = bytes_of("37 5 128 5 37 5")
FIVES = bytes_of("5 5 5 5 5 5")

# A drawing that goes to and fro between two states with code 5, and a simplified one that stays where it is.
DRAWN = "16 2 17 0 5 1 17 1 5 0"
SIMPLIFIED = "16 1 17 0 5 0"

# What the header has for a kept scan in place of a node.
KEPT_VALUE = 64

# What matching can refuse, by the header's numbers.
INPUTS = {"first": 1, "second": 2, "pairs": 3}

# What each entry of a table has before the first call: no rule here has so many equations.
UNTOUCHED = 51400

# After the name of a function come its answer, 0 or the number of a refusal, and the value beside it: the count of equations, 1 for a model that meets
# its rule or a list that matches and 0 for others, the number of an ff node or 64 for a scan that is kept, or the place of the refusal. Where a table is
# lent, there follows how many of its entries are still untouched; of a matching, which of its inputs the refusal is about, or 0. A run has the equation
# and the counts of kept and of dropped scans there, and then the 8 bytes of the output and all verdicts. The verdicts had 7 before the first run over each
# table, and the run with 5 of them has its own; the output has 7 before each.
LINES = [
    # the number-pool rule has 3 equations; the one whose branches drop alike has 4, and 3 when they are merged
    "count 0 3",
    "count_preview 0 3",
    "count_short 0 3",
    "count 0 4",
    "count_preview 0 4",
    "count_short 0 3",
    # a refused rule, with a table of less than a row and a refused model
    "count 7 1",
    "count_preview 7 1",
    "count_short 7 1",
    "fill 7 1 255",
    "fill_preview 7 1 255",
    "fill_short 7 1 255",
    "judge 7 1 255",
    "count 9 0",
    "count_preview 18 0",
    "count_short 9 0",
    "fill 9 0 255",
    "fill_preview 18 0 255",
    "fill_short 9 0 255",
    "judge 9 0 255",
    # 767 entries: one less than 3 rows take
    "fill 10 0 767",
    "fill_preview 10 0 767",
    "fill_short 10 0 767",
    "fill_short 10 0 767",
    "judge 10 0 767",
    "judge 10 0 767",
    # 769: one more
    "judge 11 4 769",
    "judge 0 0 1",
    "judge 0 1 1",
    "fill 0 3 1",
    # 1,023: enough for 3 rows, and one less than 4 take; and 1,024
    "fill 10 0 1023",
    "judge 10 0 1023",
    "fill_short 0 3 255",
    "fill_short 0 3 256",
    "fill 0 4 0",
    # 33 equations are one too many for the page, and with no table 18 comes before 10
    "count 0 33",
    "count_preview 18 0",
    "count_short 0 1",
    "fill_preview 18 0 0",
    "fill_preview 18 0 0",
    # 32 equations with an entry less than their rows take; then a table with as many as they take, for 33 and for 32
    "count 0 32",
    "count_preview 0 32",
    "count_short 0 1",
    "fill_preview 10 0 8191",
    "fill_preview 18 0 8192",
    "fill_preview 0 32 0",
    "explain 0 4",
    "explain 0 64",
    "explain 17 1",
    "explain 17 1",
    "explain 7 1",
    "explain 0 2",
    "explain 0 4",
    "explain 0 64",
    "explain 17 0",
    # 768
    "judge 0 1 0",
    "fill 0 3 0",
    "run 0 1 5 1 37 128 5 37 5 7 7 7 0 1 0 0 0 0 7 7",
    "run 16 3 0 0 7 7 7 7 7 7 7 7 0 1 0 0 0 0 7 7",
    "run 15 2 0 0 7 7 7 7 7 7 7 7 7 7 7 7 7",
    # a run over what the page fills
    "fill_preview 0 3 0",
    "run 0 1 5 1 37 128 5 37 5 7 7 7 0 1 0 0 0 0 7 7",
    "fill_short 0 3 0",
    "run 0 1 6 0 37 5 128 5 37 5 7 7 0 0 0 0 0 0 7 7",
    "run 0 1 5 1 5 128 5 37 5 7 7 7 1 0 0 0 0 0 7 7",
    # 256 equations, with an entry too few and with enough. Six times 5 lead from 31 to 63, 127, and 255 for good; from 255 the scans lead to 254, 253, 250, 245,
    # 234 and 213; and 256 is none of them
    "count 0 256",
    "count_preview 18 0",
    "count_short 0 1",
    "fill 10 0 65535",
    "fill 0 256 0",
    "run 0 255 6 0 5 5 5 5 5 5 7 7 0 0 0 0 0 0 7 7",
    "run 0 213 6 0 37 5 128 5 37 5 7 7 0 0 0 0 0 0 7 7",
    "run 16 256 0 0 7 7 7 7 7 7 7 7 0 0 0 0 0 0 7 7",
]

# Those of matching have no table: beside the value stands which input a refusal is about.
MATCHES = [
    # both states of the drawing beside the one state; a list that lacks the second pair, and an empty one
    "match 0 1 0",
    "match 0 0 0",
    "match 0 0 0",
    # a list that ends inside a pair, and one with a state that the drawing doesn't have; then each model empty
    "match 22 1 3",
    "match 23 0 3",
    "match 11 0 1",
    "match 11 0 2",
]


def line_of(name, *numbers):
    return " ".join([name, *map(str, numbers)])


def result_of(answer):
    """The numbers for what counting or filling answers."""
    return (answer.number, answer.place) if isinstance(answer, Refusal) else (0, len(answer))


def counted_lines(rule):
    counts = {"count": rows, "count_preview": lambda data: rows(data, PAGE), "count_short": short_rows}
    return [line_of(name, *result_of(rows_of_file(bytes_of(rule)))) for name, rows_of_file in counts.items()]


def fill_preview(data, table):
    return fill(data, table, PAGE)


def filled_line(by, rule, table):
    """The line of a filling, which changes the table in place."""
    return line_of(by.__name__, *result_of(by(bytes_of(rule), table)), table.count(UNTOUCHED))


def judged_line(rule, model, table):
    word, *numbers = judge(bytes_of(rule), bytes_of(model), table).split()
    result = (numbers[0], numbers[2]) if word == "refused" else (0, int(word == "meets"))
    return line_of("judge", *result, table.count(UNTOUCHED))


def explained_line(rule, kept, scan):
    word, *numbers = by_violation(bytes_of(rule), bytes_of(kept), scan).split()
    if word == "refused":
        return line_of("explain", numbers[0], numbers[2])
    return line_of("explain", 0, KEPT_VALUE if word == KEPT else numbers[0])


def matched_line(first, second, pairs):
    word, *words = match(bytes_of(first), bytes_of(second), bytes_of(pairs)).split()
    result = (words[1], words[3], INPUTS[word]) if word in INPUTS else (0, int(word == "yes"), 0)
    return line_of("match", *result)


def ran_line(table, state, verdicts, count=3, scans=SCANS):
    """The line of a run."""
    output = bytearray([7] * 8)
    answer = run(table, count, state, scans, output, verdicts)
    number = 0 if answer.refusal is None else answer.refusal.number
    return line_of("run", number, answer.state, answer.kept, answer.dropped, *output, *verdicts)


def untouched(size):
    return array("H", [UNTOUCHED] * size)


def refused_lines(rule):
    """The lines of a rule that is refused."""
    table = untouched(255)
    return counted_lines(rule) + [filled_line(by, rule, table) for by in (fill, fill_preview, fill_short)] + [judged_line(rule, CUT, table)]


def table_lines():
    """Fillings and judgments with tables of several sizes."""
    less, more, almost, whole = [untouched(size) for size in (767, 769, 1023, 1024)]
    lines = [filled_line(by, rule, less) for by, rule in ((fill, POOL), (fill_preview, POOL), (fill_short, POOL), (fill_short, ALIKE))]
    lines += [judged_line(POOL, model, less) for model in (MEETING, CUT)]
    lines += [judged_line(POOL, model, more) for model in (CUT, PAPER, MEETING)] + [filled_line(fill, POOL, more)]
    lines += [filled_line(fill, ALIKE, almost), judged_line(ALIKE, MEETING, almost), filled_line(fill_short, ALIKE, almost)]
    return lines + [filled_line(by, ALIKE, whole) for by in (fill_short, fill)]


def preview_lines():
    """The page on rules with more equations than it shows, and with as many."""
    none, less, whole = [untouched(size) for size in (0, 8191, 8192)]
    lines = counted_lines(OVER_PAGE) + [filled_line(fill_preview, rule, none) for rule in (OVER_PAGE, MANY)]
    lines += counted_lines(FULL_PAGE) + [filled_line(fill_preview, FULL_PAGE, less)]
    return lines + [filled_line(fill_preview, rule, whole) for rule in (OVER_PAGE, FULL_PAGE)]


def run_lines():
    """Runs over tables that just fit: that of the number-pool rule, filled by the desk and by the page, and the short one of the other."""
    table, verdicts = untouched(768), bytearray([7] * 8)
    lines = [judged_line(POOL, MEETING, table), filled_line(fill, POOL, table)]
    lines += [ran_line(table, 0, verdicts), ran_line(table, 3, verdicts), ran_line(table, 2, bytearray([7] * 5))]
    table, verdicts = untouched(768), bytearray([7] * 8)
    lines += [filled_line(fill_preview, POOL, table), ran_line(table, 0, verdicts)]
    table, verdicts = untouched(768), bytearray([7] * 8)
    return lines + [filled_line(fill_short, ALIKE, table)] + [ran_line(table, state, verdicts) for state in (0, 2)]


def past_lines():
    """Fillings and runs with as many equations as a byte has values."""
    less, table, verdicts = untouched(65535), untouched(65536), bytearray([7] * 8)
    lines = counted_lines(PAST_BYTES) + [filled_line(fill, PAST_BYTES, some) for some in (less, table)]
    runs = ((31, FIVES), (255, SCANS), (256, SCANS))
    return lines + [ran_line(table, state, verdicts, 256, scans) for state, scans in runs]


def all_lines():
    """The lines by the Python."""
    counts = counted_lines(POOL) + counted_lines(ALIKE) + refused_lines(UNGUARDED) + refused_lines(MANY)
    reasons = [explained_line(POOL, "37", 5), explained_line(POOL, "37 128", 5)]
    reasons += [explained_line(POOL, "37 5", 5), explained_line(POOL, "37 5", 128), explained_line(UNGUARDED, "37 5", 5)]
    reasons += [explained_line(EITHER, "", scan) for scan in (5, 37, 6)] + [explained_line(EITHER, "37", 5)]
    return counts + table_lines() + preview_lines() + reasons + run_lines() + past_lines()


def match_lines():
    """The lines of matching."""
    matches = [matched_line(DRAWN, SIMPLIFIED, pairs) for pairs in ("0 0 1 0", "0 0", "", "0", "2 0")]
    return matches + [matched_line("", SIMPLIFIED, "0 0"), matched_line(DRAWN, "", "0 0")]


def main():
    checks = is_check(__doc__)
    expect(all_lines() == LINES, "calls", all_lines())
    expect(match_lines() == MATCHES, "matches", match_lines())
    settle("boundary_calls", b"", LINES, checks)
    settle("matching_calls", b"", MATCHES, checks)
    print(f"{len(LINES) + len(MATCHES)} calls")


if __name__ == "__main__":
    main()
