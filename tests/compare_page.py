"""Holds what the rule page counts, fills and lists against what the desk does, and against what was typed."""
from functools import partial

import known_page
from compare import check_filling, expect
from equations import DESK, PAGE, fill, rows, said, text_of
from expected import fresh_table
from rules import Refusal


def check_typed():
    """What was typed is what the page says."""
    for data, typed in known_page.listings():
        text = text_of(data, rows(data, PAGE))
        expect(text == typed, "listing on the page", list(data), text)
    for data, size, answer in known_page.fillings():
        check_filling(partial(fill, terms=PAGE), data, size, answer)


def is_beyond(counted, terms):
    """Whether this is the refusal of too many equations."""
    return str(counted) == str(Refusal(terms.number, 0))


def check_beyond(size, data):
    """Where the page refuses with 18, the desk counts over 32 equations or refuses with 9, and no table is filled."""
    desk = rows(data)
    expect(is_beyond(desk, DESK) or not isinstance(desk, Refusal) and len(desk) > PAGE.most, "18 on the page", list(data))
    table = fresh_table(size, 0)
    expect(is_beyond(fill(data, table, PAGE), PAGE) and table == fresh_table(size, 0), "filling after 18", list(data), size)


def check_alike(size, data):
    """All else that the page says the desk says too: the same count or refusal, the same of filling, the same table and
    the same listing. The page never says 9."""
    page_table, desk_table = fresh_table(size, 0), fresh_table(size, 0)
    page, desk = fill(data, page_table, PAGE), fill(data, desk_table)
    expect(said(rows(data, PAGE)) == said(rows(data)), "count on the page", list(data))
    expect(said(page) == said(desk) and not is_beyond(page, DESK), "filling on the page", list(data), size)
    expect(page_table == desk_table, "table on the page", list(data), size)
    expect(text_of(data, page) == text_of(data, desk), "listing on the page", list(data), size)


def check(cases):
    """Checks what was typed, and the page beside the desk in each case, by its table's size and its file."""
    check_typed()
    for size, _, data in cases:
        check_case = check_beyond if is_beyond(rows(data, PAGE), PAGE) else check_alike
        check_case(size, data)
