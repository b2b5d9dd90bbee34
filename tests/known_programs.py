"""What brings the programs to their limits, and what they print of it: typed by hand from the paper."""
import known_equations
from known import ANY, EMPTY, POOL, bytes_of
from known_empty import counted_beside

# As many patterns and nodes as there may be, in as many bytes: pattern n covers code n alone, and necessity n waits for
# code n, or n - 32. After the last of the 63 comes ff.
WAITS = [node % 32 for node in range(63)]
LONGEST = "".join(f"1 1 {slot} {slot} " for slot in range(32)) + "".join(f"5 {code} " for code in WAITS) + "3"


def longest_lines():
    """The listing of the longest rule. Equation 2 is the empty set, found by code 1 of equation 0. The others have one
    necessity each: 0 and 1 the first two, and those from 3 on the rest."""
    lines = ["patterns 32"] + [f"p {slot} {slot} 1" for slot in range(32)] + ["equations 64"]
    for number in range(64):
        if number == 2:
            lines.append("2 0 255 2")
            continue
        code = WAITS[number if number < 2 else number - 1]
        follows = {1: 3, 63: "drop"}.get(number, number + 1)
        lines += [f"{number} 0 {code - 1} 2"] if code > 0 else []
        lines += [f"{number} {code} {code} {follows}", f"{number} {code + 1} 255 2"]
    return lines


# The paper's second family with m = 7 and slot 5 of every kind in place of code 5; slot 9 is always dropped; and there is an ff
# after an empty pattern.
MANY = ANY + "1 255 5 5 1 255 9 9 " + EMPTY + "6 4 4 4 5 0 7 0 5 1 " + "5 0 " * 7 + "2 5 2 3 5 3 3"


def many_lines():
    """The listing of the rule above: 128 equations of 33 lines each. A scan of slot 5 leads from equation k to 2 × k + 1,
    and any other but one of slot 9 to 2 × k, modulo 128."""
    lines = ["patterns 4", "p 0 0 256", "p 1 5 8", "p 2 9 8", "p 3 none 0", "equations 128"]
    for k in range(128):
        other, five = 2 * k % 128, (2 * k + 1) % 128
        lines.append(f"{k} 0 4 {other}")
        for low in range(0, 256, 32):
            high = min(low + 36, 255)
            lines += [f"{k} {low + 5} {low + 5} {five}", f"{k} {low + 6} {low + 8} {other}"]
            lines += [f"{k} {low + 9} {low + 9} drop", f"{k} {low + 10} {high} {other}"]
    return lines


# The program `equations` and the others of the same call, with what each reads.
PROGRAMS = [
    ("equations", POOL),
    ("equations_long", MANY),
    ("equations_refused", known_equations.LONG),
    ("equations_empty", ""),
]

# A stream under the longest rule. The codes that the necessities wait for lead up to the last of them, whose code 30 is
# dropped however often it comes; here that takes up a whole block and parts of two others. A 31 leads to the empty set,
# under which nothing is dropped.
SCANS = bytes(WAITS[:62]) + bytes([30]) * (2 * 65536) + bytes([31]) + bytes(WAITS)
KEPT = bytes(WAITS[:62]) + bytes([31]) + bytes(WAITS)

# Where nothing can be written, `equations` prints no line, `sift` ends after the first block, in equation 63, and each of
# the three programs says so once.
UNWRITTEN = """lines 0 equation 63
equations: standard output
sift: standard output
meets: standard output
"""

# Where standard input is a folder and there is no model.bin: what `equations` and `meets` print. Where there is no rule.bin
# either: what `sift` and `meets` print. Then what all of them said.
UNREAD = """refused 1 at 0
refused 11 at 0
refused 1 at 0
refused 1 at 0
equations: standard input: Is a directory
sift: standard input: Is a directory
meets: model.bin: No such file or directory
sift: rule.bin: No such file or directory
meets: rule.bin: No such file or directory
meets: model.bin: No such file or directory
"""

# A rule of 129 equations: what each of the three programs prints.
REFUSED = "refused 9 at 0\n"

# 64 states and 512 steps, each with a code: a chain of the codes that the longest rule waits for, whose last step comes
# last. Without that step the chain stops short of ff. All other steps have code 255, which leads to the empty set.
CHAIN = [(state, code, state + 1) for state, code in enumerate(WAITS)]
STEPS = CHAIN[:62] + [(n % 64, 255, n % 63) for n in range(449)] + CHAIN[62:]


def over():
    return bytes_of(counted_beside(7))


def programs():
    """Each program with its input and what it must print."""
    texts = dict(known_equations.listings() + listings())
    return [(program, bytes_of(text), texts[bytes_of(text)]) for program, text in PROGRAMS]


def listings():
    """Both rules with the whole text of their listings."""
    typed = [(LONGEST, longest_lines()), (MANY, many_lines())]
    return [(bytes_of(text), "".join(line + "\n" for line in lines)) for text, lines in typed]
