"""What the rule page counts, fills and lists, typed by hand: it shows up to 32 equations, and 18 refuses a rule of more."""
import known_equations
import known_wide
from known import ANY, ONE, POOL, bytes_of, counted
from known_empty import NEVER_MET, counted_beside
from known_equations import PLACES
from known_wide import counted_lines

# The entries of 32 rows, and of 33.
FULL_PAGE = 8192
TOO_MANY = 8448


def chain(n):
    """The paper's first family: n necessities of any code, and then tt."""
    return ANY + "5 0 " * n + "2"


def chain_lines(n):
    """Each of its n + 1 equations leads to the next, and the last to itself."""
    lines = ["patterns 1", "p 0 0 256", f"equations {n + 1}"]
    return lines + [f"{k} 0 255 {k + 1}" for k in range(n)] + [f"{n} 0 255 {n}"]


def late(n):
    """The rule of that name with 4 ways for the first code and 2 for the second: 1, 4, 8, 8 and 8 equations for 0 to 4
    codes, and 25 + n in all. With n = 8 the 33rd is found in the row of the 32nd alone."""
    return known_equations.late(n, (1, 2), (1,))


# 34 equations, 33 of which are known after row 0: three patterns tell the kinds apart, in 8 ways, and three the slots, in 4.
WIDE = "1 15 0 31 1 51 0 31 1 85 0 31 1 255 0 15 1 255 8 23 1 255 16 31 " + "4 " * 5 + "".join(f"5 {i} 5 {i} 2 " for i in range(6))

# Opening node 0 gives ff, and beside it stands the paper's second family with m = 6, of 64 equations.
UNSATISFIABLE = ANY + ONE + "4 3 6 4 5 0 7 0 5 1 " + "5 0 " * 6 + "2"

# Rules with a listing in known_equations.py that the page doesn't show. All others there it lists alike.
BEYOND = [counted(7), ANY + "5 0 " * 63 + "3"] + [rule for rule, _ in known_wide.LISTINGS]

# More of what the page lists.
LISTINGS = [
    (chain(30), chain_lines(30)),
    (chain(31), chain_lines(31)),
    (chain(32), ["refused 18 at 0"]),
    (counted(5), counted_lines(5)),
    (counted(6), ["refused 18 at 0"]),
    # 1,048,576 equations
    (counted(20), ["refused 18 at 0"]),
    (late(8), ["refused 18 at 0"]),
    (WIDE, ["refused 18 at 0"]),
    (UNSATISFIABLE, ["refused 8 at 0"]),
    # 33 equations, of which one is there by an empty pattern
    (counted_beside(5), ["refused 18 at 0"]),
    # bytes after the rule: reading comes before 18
    (counted(6) + " 2", ["refused 3 at 29"]),
]

# What filling on the page answers with a table of so many entries.
FILLINGS = [(chain(n), 256 * (n + 1), f"equations {n + 1}") for n in (0, 1, 30, 31)]
FILLINGS += [(chain(n), 256 * (n + 1) - 1, "refused 10 at 0") for n in (0, 1, 30, 31)]
FILLINGS += [(chain(n), 0, "refused 10 at 0") for n in (0, 1, 30, 31)]
FILLINGS += [(counted(m), 256 * 2**m, f"equations {2**m}") for m in range(6)]
FILLINGS += [(counted(m), 256 * 2**m - 1, "refused 10 at 0") for m in range(6)]
FILLINGS += [(late(n), 256 * (25 + n), f"equations {25 + n}") for n in (5, 6, 7)]
FILLINGS += [(late(n), 256 * (25 + n) - 1, "refused 10 at 0") for n in (5, 6, 7)]
FILLINGS += [
    (rule, size, "refused 18 at 0")
    for rule in (chain(32), late(8), WIDE, counted(6), counted(7), counted(8), counted(20), counted_beside(5))
    for size in (0, 255, FULL_PAGE - 1, FULL_PAGE, TOO_MANY - 1, TOO_MANY, 40000)
]
FILLINGS += [(rule, 256000, "refused 18 at 0") for rule in (known_wide.WIDEST, known_wide.TOO_WIDE)]
FILLINGS += [
    (chain(31), 40000, "equations 32"),
    (POOL, 768, "equations 3"),
    (POOL, 767, "refused 10 at 0"),
    (NEVER_MET, 512, "equations 2"),
    (NEVER_MET, 511, "refused 10 at 0"),
    (counted_beside(4), 4352, "equations 17"),
    # there are no short tables on the page
    (PLACES, 1024, "equations 4"),
    (PLACES, 768, "refused 10 at 0"),
    # 127, 128 and 129 equations, with room for them
    (known_equations.late(26), 32512, "refused 18 at 0"),
    (known_equations.late(27), 32768, "refused 18 at 0"),
    (known_equations.late(28), 33024, "refused 18 at 0"),
    # what comes before 18 and before 10
    ("", 0, "refused 1 at 0"),
    ("0", 0, "refused 2 at 0"),
    ("2 2", 255, "refused 3 at 1"),
    (counted(6) + " 2", FULL_PAGE, "refused 3 at 29"),
    (ANY + "5 0 " * 64 + "2", 256, "refused 4 at 132"),
    ("1 1 6 32 2", 1, "refused 5 at 0"),
    ("5 0 2", 0, "refused 6 at 0"),
    ("6 7 0", 0, "refused 7 at 1"),
    ("3", 0, "refused 8 at 0"),
    ("3", FULL_PAGE, "refused 8 at 0"),
    (UNSATISFIABLE, 0, "refused 8 at 0"),
]


def listings():
    """Each file with the whole text of what the page lists."""
    beyond = [bytes_of(text) for text in BEYOND]
    typed = [(bytes_of(text), "".join(line + "\n" for line in lines)) for text, lines in LISTINGS]
    typed += [(data, "refused 18 at 0\n") for data in beyond]
    return typed + [(data, text) for data, text in known_equations.listings() if data not in beyond]


def fillings():
    """Each file with the size of a table and the answer."""
    return [(bytes_of(text), size, answer) for text, size, answer in FILLINGS]
