"""The rule files and table sizes on which counting and filling are tried. They are the same at each run."""
from random import Random

import cases
import empty_pairs
import known
import known_equations
import known_page
import known_short
import known_wide
from equations import CODES, DESK, LARGEST_TABLE, PAGE, PROGRAM_TABLE, PROGRAMS, is_accepted, rows, within
from equation_shapes import counters, drawn, families, limit_rules, page_rules, pattern_rules, small_rules, tangled, wide_rules
from expected import MOST_ENTRIES
from merging import short_rows
from merging_shapes import merging_rules
from rules import Refusal
from shapes import longest_rules, random_rules

# Sizes of tables whatever their rule: none, on both sides of one row, too small for 128 rows, and more than enough for them.
SIZES = [0, 255, 256, 32767, 40000]

# Sizes at which rows end, and beside them: rows 126 to 128, 155, 998 to 1,000, and the last of the program's space.
ROW_SIZES = [1, 32512, 32769, 33023, 33024, 39935, 39936, 255744, 255999, 256000, 256255, 256256, MOST_ENTRIES - 1, MOST_ENTRIES]

# There are at least so many cases of each sort.
LEAST = 5
SORTS = [f"{number} before 10" for number in range(1, 10)]
SORTS += ["10 for both tables", "10 for the long table alone", "rows that just fit", "an entry too few"]
SORTS += ["18 before 10", "18 where the desk counts", "18 where the desk has 9"]
SORTS += ["10 on the page", "page rows that just fit", "an entry too few on the page"]

# At each limit, and where an entry takes two bytes: one equation fewer, as many, and one more.
PAGE_EDGES = range(PAGE.most - 1, PAGE.most + 2)
EDGES = [count + more for count in (PAGE.most, PROGRAMS.most, CODES, DESK.most) for more in (-1, 0, 1)]
SORTS += [f"{count} equations" for count in EDGES]

# Limits to count and fill within, with those of all whose count is what the case has, or one more or less.
SORTS += [f"within {limit}: {answer}" for limit in known_wide.LIMITS for answer in ("counted", "9") if (limit, answer) != (0, "counted")]
SORTS += ["within: as many as there are", "within: one less", "within: one more", "within: 9 before 10", "within: 10"]

# The program takes no longer file.
MOST_BYTES = 1024

# Every so many-th of those that are listed, and of all, comes with tables of many sizes; and so few of the listed ones with sizes at which rows end.
LISTED, MANY, ROWS_OF = 3, 120, 9


def typed_files():
    typed = known_equations.listings() + known_equations.fillings() + known.answers()
    every = [file for file, *answer in typed + known_equations.verdicts() + known_equations.violations()]
    return [file for file in every if len(file) <= MOST_BYTES]


def rule_files(random):
    """Rules of many shapes."""
    files = families() + pattern_rules(random) + longest_rules(random) + random_rules(random)
    for nodes in range(1, 6):
        files += small_rules(nodes)
    files += small_rules(6)[::10] + small_rules(7)[::41]
    return files + drawn(random, counters, 250) + drawn(random, tangled, 350) + limit_rules(random)


def files():
    """Every file, none of them twice, with some of those on which reading is tried, most of which are refused."""
    some_read = [file for file in cases.files()[::37] if len(file) <= MOST_BYTES]
    return list(dict.fromkeys(typed_files() + rule_files(Random(2)) + some_read))


def every_file():
    """These files and more, which are for the short tables, for the rule page, for empty patterns and for many equations."""
    typed = known_short.listings() + known_short.fillings() + known_page.listings() + known_page.fillings()
    more = [file for file, *answer in typed if len(file) <= MOST_BYTES]
    more += merging_rules(Random("merging")) + page_rules(Random("page"))
    more += [file for pair in empty_pairs.pairs() for file in pair] + wide_rules(Random("wide"))
    more += [known.bytes_of(text) for text, _ in known_wide.WITHIN]
    return list(dict.fromkeys(files() + more))


def fitting_sizes(file):
    """How many entries the long rows of a file take and how many the short ones, where it isn't refused."""
    return [CODES * len(table) for table in (rows(file), short_rows(file)) if not isinstance(table, Refusal)]


def own_size(number, file):
    """By turns a table with room for 128 rows, or for 1,000 where there are more, and one that the long rows just fit, which for a
    refused file has less than a row."""
    largest = LARGEST_TABLE if is_accepted(file) and not is_accepted(file, PROGRAMS) else PROGRAM_TABLE
    return largest if number % 2 == 0 else (fitting_sizes(file) + [CODES - 1])[0]


def all_sizes(file):
    """Those for every rule, and those that the long and the short rows just fit, one entry less and one more."""
    return sorted({*SIZES, *(size + more for size in fitting_sizes(file) for more in (-1, 0, 1))})


def count_of(file):
    """How many equations there are, up to one more than the desk's limit. A file that is refused or has more counts as 0."""
    counted = rows(file, DESK._replace(most=DESK.most + 1))
    return 0 if isinstance(counted, Refusal) else len(counted)


def page_sizes(file):
    """No entries, as many as the rows take, and one less."""
    return [0, CODES * count_of(file) - 1, CODES * count_of(file)]


def sized_files(every):
    """Each file with a table of one size, those that were typed with theirs, and some files with tables of many sizes, or
    with a few where they are at the page's limit. No two come twice."""
    sized = [(own_size(number, file), file) for number, file in enumerate(every)]
    sized += [(size, file) for file, size, answer in known_equations.fillings() + known_short.fillings() + known_page.fillings()]
    listings = known_equations.listings() + known_short.listings()
    listed = [file for file, *answer in listings if len(file) <= MOST_BYTES]
    sized += [(size, file) for file in listed[::LISTED] + every[::MANY] for size in all_sizes(file)]
    at_limit = [file for file in every if count_of(file) in PAGE_EDGES]
    sized += [(size, file) for file in at_limit[::4] for size in page_sizes(file)]
    return list(dict.fromkeys(sized + [(size, file) for file in listed[::ROWS_OF] for size in ROW_SIZES]))


def limit_for(number, file):
    """By turns one of the limits that were typed, and the count, one less and one more."""
    limits = known_wide.LIMITS
    own = [max(count_of(file) + more, 0) for more in (-1, 0, 1)]
    return limits[number // 4 % len(limits)] if number % 4 == 0 else own[number % 4 - 1]


def whole_cases(every):
    """A table's size, a limit and a file each. Some rules come with every limit, and a table that their rows just fit or that is an entry too small."""
    found = [(size, limit_for(number, file), file) for number, (size, file) in enumerate(sized_files(every))]
    for text, count in known_wide.WITHIN:
        found += [(CODES * min(count, DESK.most) - limit % 2, limit, known.bytes_of(text)) for limit in known_wide.LIMITS]
    return list(dict.fromkeys(found))


def table_sorts_of(size, file):
    """What a case tells of the order of refusals and of what 10 goes by, for the long and the short table."""
    fitting = fitting_sizes(file)
    if not fitting:
        yield from [f"{rows(file).number} before 10"] * (size < CODES)
    elif size < min(fitting):
        yield "10 for both tables"
    elif size < max(fitting):
        yield "10 for the long table alone"
    yield from ["rows that just fit"] * (size in fitting)
    yield from ["an entry too few"] * (size + 1 in fitting)


def page_sorts_of(size, file):
    """The same of the rule page. Where it refuses with 18, there are at least 33 rows."""
    shown = rows(file, PAGE)
    if not isinstance(shown, Refusal):
        yield from ["10 on the page"] * (size < CODES * len(shown))
        yield from ["page rows that just fit"] * (size == CODES * len(shown))
        yield from ["an entry too few on the page"] * (size + 1 == CODES * len(shown))
    elif shown.number == PAGE.number:
        yield "18 where the desk has 9" if isinstance(rows(file), Refusal) else "18 where the desk counts"
        yield from ["18 before 10"] * (size < CODES * (PAGE.most + 1))


def within_sorts_of(size, limit, file):
    """The same of a limit, for the rules that aren't refused for another reason."""
    count, counted = count_of(file), rows(file, within(limit))
    is_counted = not isinstance(counted, Refusal)
    if is_counted or counted.number == DESK.number:
        yield from [f"within {limit}: " + ("counted" if is_counted else "9")] * (limit in known_wide.LIMITS)
        own = {count: "as many as there are", count - 1: "one less", count + 1: "one more"}
        yield from [f"within: {what}" for number, what in own.items() if number == limit]
        yield from ["within: " + ("10" if is_counted else "9 before 10")] * (size < CODES * count)


def sorts_of(size, limit, file):
    """What a case tells, as SORTS has it."""
    edges = [f"{count_of(file)} equations"] * (count_of(file) in EDGES)
    return [*table_sorts_of(size, file), *page_sorts_of(size, file), *within_sorts_of(size, limit, file), *edges]
