"""Holds counting and filling within a limit against what was typed and against the desk, and tables with one mark against those with another."""
import known_wide
from compare import expect
from equations import CODES, DESK, PROGRAMS, Terms, fill, rows, said, within
from expected import fresh_table
from known import bytes_of
from rules import Refusal

# The terms of before C-19, when an entry was one byte.
BYTES = Terms(PROGRAMS.most, PROGRAMS.number, 255)


def check_typed():
    """What was typed is what counting says within each limit. The equations are those within no limit."""
    for text, count in known_wide.WITHIN:
        data = bytes_of(text)
        expect(said(rows(data, DESK._replace(most=count))) == f"equations {count}", "equations", text, count)
        for limit in known_wide.LIMITS:
            answer = said(rows(data, within(limit)))
            expect(answer == known_wide.answer_within(limit, count), "within a limit", text, limit, answer)


def check_limit(limit, data):
    """Within a limit there is the desk's answer, or 9 where the desk counts more."""
    desk, counted = rows(data), rows(data, within(limit))
    is_more = not isinstance(desk, Refusal) and len(desk) > limit
    expect(said(counted) == ("refused 9 at 0" if is_more else said(desk)), "within a limit", list(data), limit)
    expect(is_more or isinstance(desk, Refusal) or counted == desk, "rows within a limit", list(data), limit)


def check_marks(size, data):
    """With entries of one byte a rule of up to 128 equations has the same count, and each entry is the same but for the mark. Only where there
    are more is the answer 9 instead."""
    old, new = fresh_table(size, 0), fresh_table(size, 0)
    before, after = fill(data, old, BYTES), fill(data, new)
    if not isinstance(rows(data), Refusal) and len(rows(data)) > BYTES.most:
        expect(said(before) == "refused 9 at 0" and old == fresh_table(size, 0), "9 with one byte", list(data), size)
        return
    expect(said(before) == said(after), "count with one byte", list(data), size)
    count = 0 if isinstance(before, Refusal) else CODES * len(before)
    same = [DESK.mark if entry == BYTES.mark else entry for entry in old[:count]]
    expect(same == list(new[:count]) and old[count:] == new[count:], "entries with one byte", list(data), size)


def check(cases):
    """Checks what was typed; the limit of each case, a table's size, a limit and a file; and the marks in every tenth."""
    check_typed()
    for size, limit, data in cases:
        check_limit(limit, data)
    for size, _, data in cases[::10]:
        check_marks(size, data)
