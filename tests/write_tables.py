"""Writes what the test program `tables` reads and what it must answer, from the Python equations alone; and the same
of `equations` and the other programs of its call, from the listings that were typed.

Each case on the standard input of `tables` is a table's size, three bytes, a limit, eight bytes, and a file's length, three
bytes, each highest first, and then the rule file. Each case has one line on its standard output. With --check nothing is written, and the files
are compared with what would be.
"""
import compare_empty
import compare_page
import compare_short
import compare_within
import empty_pairs
import known_programs
import table_cases
from compare import check, expect
from equations import CODES, PAGE, PROGRAMS, fill, listing, row, rows, text_of, within
from expected import digest, eight_bytes, fresh_table, is_check, settle, table_digest, three_bytes, told
from merging import fill_short, short_rows
from rules import Refusal

# Numbers of rows that are asked for besides those of the equations and the one behind them.
ROWS = [127, 128, 155, 156, 999, 1000, 1023, 2**55, 2**56, 2**64 - 1]


def answer_word(counted):
    """What counting or filling answers: a number, or a refusal."""
    return str(counted) if isinstance(counted, Refusal) else str(len(counted))


def table_words(counted, filled, table):
    """What counting answers, and what filling answers and leaves in the table."""
    return [answer_word(counted), answer_word(filled), str(table_digest(table))]


def answer_words(data, counted, filled, table):
    """The same, and what is listed of it: its length, without which zeros before the others wouldn't be seen, and its digest."""
    content = text_of(data, filled).encode()
    return [*table_words(counted, filled, table), str(len(content)), str(digest(content))]


def row_words(table, filled):
    """The rows that were filled, and some others that are asked for one by one. Of these the empty ones are left out."""
    count = 0 if isinstance(filled, Refusal) else len(filled)
    handed = table[: CODES * count]
    others = [(number, row(table, number)) for number in [count] + ROWS]
    words = [f"{number} {len(entries)} {table_digest(entries)}" for number, entries in others if entries]
    return ["rows", f"{len(handed)} {table_digest(handed)}"] + words


def line_of(case, size, limit, data):
    long, page, short, some = (fresh_table(size, case) for _ in range(4))
    filled, filled_page, filled_short = fill(data, long), fill(data, page, PAGE), fill_short(data, short)
    words = answer_words(data, rows(data), filled, long) + row_words(long, filled)
    words += ["page", *answer_words(data, rows(data, PAGE), filled_page, page)]
    words += ["short", *answer_words(data, short_rows(data), filled_short, short)]
    terms = within(limit)
    return " ".join(words + ["within", *table_words(rows(data, terms), fill(data, some, terms), some)])


def main():
    checks = is_check(__doc__)
    files = table_cases.every_file()
    rules, lists = check(files)
    telling = compare_empty.check(empty_pairs.pairs())
    tally = compare_short.check(files)
    cases = table_cases.whole_cases(files)
    compare_page.check(cases)
    compare_within.check(cases)
    tally.update(sort for case in cases for sort in table_cases.sorts_of(*case))
    expect(all(tally[sort] >= table_cases.LEAST for sort in table_cases.SORTS), told(tally))
    lines = [line_of(number, *case) for number, case in enumerate(cases)]
    stdin = b"".join(three_bytes(size) + eight_bytes(limit) + three_bytes(len(data)) + data for size, limit, data in cases)
    settle("tables", stdin, lines, checks)
    for program, data, text in known_programs.programs():
        expect(listing(data, PROGRAMS) == text, program, listing(data, PROGRAMS))
        settle(program, data, text.splitlines(), checks)
    print(f"{rules} rules compared on {lists} lists of codes, {len(cases)} cases: {told(tally)}")
    print(f"{len(empty_pairs.pairs())} pairs that differ after empty patterns, {telling} streams that would tell them apart if these had all kinds")


if __name__ == "__main__":
    main()
