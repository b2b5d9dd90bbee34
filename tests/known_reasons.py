"""Why scans are dropped, typed by hand: the lowest ff node, that the scan is kept, or the refusal.
Nodes are counted from 0 in reading order, and patterns aren't."""
from known import ANY, ONE, POOL, SIX, bytes_of, counted
from known_empty import BESIDE, BESIDE_LONGER, NEVER_IN_ONE, NEVER_MET, ROUND_AGAIN, counted_beside
from known_equations import BRANCHES, OVERLAPPING, REQUESTS, ROUND, ROUND_TWICE
from known_runs import SECOND
from known_wide import TOO_WIDE, later, registers

CANCEL = "1 2 5 5 "

# The answer for a kept scan, where else the number of a node stands.
KEPT = None

# Max of both "after 5, ff" and "after 37, both: after 5, ff, and the variable". The variable brings in node 3.
RETURNING = ONE + CANCEL + "6 4 5 0 3 5 1 4 5 0 3 7 0"

# The same with a max inside, whose own variable comes one 37 later: that of the inner max, and that of the outer one.
INNER = ONE + CANCEL + "6 4 5 0 3 5 1 6 4 5 0 3 5 1 7 0"
OUTER = ONE + CANCEL + "6 4 5 0 3 5 1 6 4 5 0 3 5 1 7 1"

# The first of the four rules for a desk in the README, on a second delivery of stop 7. Its only ff is node 8.
ONCE = (
    ANY + "1 8 7 7 1 254 0 31 1 1 0 6 1 1 8 31 "
    "6 4 5 0 7 0 5 1 6 4 5 1 3 4 5 2 7 0 4 5 3 7 0 5 4 7 0"
)


# As many equations as the programs take, and one more: a rule of 128, whose ff is node 12, and that rule after a first code.
LATER = later(7)
OVER = ANY + ONE + SIX + "5 0 6 4 5 0 7 0 5 1 " + "5 0 " * 6 + "5 2 3"

# As many as there may be: 28 codes, and then 6 is never the fifth code after one of kinds 0 and 1. That ff is node 48, and node 41 is one for code 5.
# With one code more before it there is one equation too many.
AT_LIMIT = registers(28)
OVER_LIMIT = registers(29)

CHAIN = ANY + "5 0 " * 63 + "3"

# A rule, the kept scans, and for each of some scans the node.
REASONS = [
    (POOL, "", {0: KEPT, 5: KEPT, 37: KEPT, 255: KEPT}),
    (POOL, "37", {5: 4, 4: KEPT, 6: KEPT, 37: KEPT, 128: KEPT}),
    (POOL, "37 128", {5: KEPT, 37: KEPT}),
    (POOL, "37 128 37", {5: 4}),
    (POOL, "37 159 37", {5: 4, 128: KEPT}),
    (POOL, "37 38", {5: KEPT}),
    (POOL, "5", {5: KEPT, 37: KEPT}),
    # the lowest one, which comes in through the variable, and not node 7, which stands nearer
    (RETURNING, "", {5: 3, 37: KEPT, 6: KEPT}),
    (RETURNING, "37", {5: 3, 37: KEPT}),
    (RETURNING, "37 37 37", {5: 3}),
    (RETURNING, "37 6", {5: KEPT}),
    (ONE + CANCEL + "6 4 5 0 3 5 1 6 4 5 0 3 7 1", "37", {5: 3}),
    (INNER, "", {5: 3}),
    (INNER, "37", {5: 8}),
    (INNER, "37 37", {5: 8}),
    (OUTER, "37", {5: 8}),
    (OUTER, "37 37", {5: 3}),
    (OUTER, "37 37 37", {5: 8}),
    # two branches, of which the scan is in one, in the other, in none
    (BRANCHES, "", {5: KEPT, 6: KEPT, 7: KEPT}),
    (BRANCHES, "5", {6: 3, 7: 6, 5: KEPT, 8: KEPT}),
    (BRANCHES, "6", {6: KEPT, 7: KEPT}),
    # patterns that overlap: 0 to 9 and 32 to 41, and 37 to 63 and 69 to 95
    (OVERLAPPING + "4 5 0 3 5 1 3", "", {9: 2, 36: 2, 37: 2, 41: 2, 42: 4, 95: 4}),
    (OVERLAPPING + "4 5 1 3 5 0 3", "", {9: 4, 36: 4, 37: 2, 41: 2, 42: 2, 64: KEPT}),
    (OVERLAPPING + "4 5 0 5 1 3 5 1 3", "", {0: KEPT, 37: 5, 63: 5, 64: KEPT, 68: KEPT, 69: 5}),
    (OVERLAPPING + "4 5 0 5 1 3 5 1 3", "0", {36: KEPT, 37: 3, 63: 3, 69: 3, 95: 3, 96: KEPT}),
    (OVERLAPPING + "4 5 0 5 1 3 5 1 3", "10", {37: KEPT}),
    # slots that go round: 31 and 2, not 29
    (ROUND, "", {31: 1, 2: 1, 29: KEPT, 63: KEPT}),
    (ROUND, "29", {31: KEPT, 0: KEPT}),
    (ROUND_TWICE, "31", {2: 2, 29: 2, 31: KEPT, 1: KEPT}),
    # equal parts at two places, and a part that tt ends
    (ONE + "4 5 0 3 5 0 3", "", {5: 2}),
    (ONE + "4 5 0 2 5 0 3", "", {5: 4}),
    (REQUESTS, "5", {5: 7, 101: KEPT}),
    (REQUESTS, "5 101", {5: KEPT}),
    (REQUESTS, "5 101 5", {5: 7}),
    (SECOND, "5 6", {6: 7, 5: KEPT}),
    (ONCE, "7 103 199", {103: 8, 102: KEPT}),
    (ONCE, "7 103 199 7", {103: KEPT}),
    # an ff after an empty pattern is never the reason: not alone, not as the lower one, and not behind a variable
    (NEVER_MET, "", {5: KEPT, 0: KEPT}),
    (NEVER_MET, "5 5", {5: KEPT}),
    (BESIDE, "", {5: 4, 6: KEPT}),
    (BESIDE_LONGER, "", {5: 7, 6: KEPT}),
    (NEVER_IN_ONE, "6", {6: 9, 5: KEPT}),
    (NEVER_IN_ONE, "5", {6: 3}),
    (ROUND_AGAIN, "5 5", {6: 8, 5: KEPT}),
    # node 63: below 63 necessities, below 62 maxes and one necessity, and as the higher of two
    (CHAIN, "0 " * 61, {0: KEPT, 255: KEPT}),
    (CHAIN, "0 " * 62, {0: 63, 255: 63}),
    (ONE + "6 " * 62 + "5 0 3", "", {5: 63, 6: KEPT}),
    (ONE + "6 " * 62 + "5 0 3", "6", {5: KEPT}),
    (OVERLAPPING + "6 " * 59 + "4 5 1 3 5 0 3", "", {0: 63, 37: 61, 41: 61, 42: 61}),
    # as many equations as the programs take, and more
    (LATER, "5" + " 0" * 6, {6: 12, 5: KEPT, 7: KEPT}),
    (LATER, "5" + " 0" * 5, {6: KEPT}),
    (LATER, "5 6 5 6 5 6 5", {6: 12}),
    (LATER, "0 5 6 5 6 5 6", {6: KEPT}),
    (OVER, "0 5" + " 0" * 6, {6: 13, 5: KEPT}),
    (OVER, "5" + " 0" * 6, {6: KEPT}),
    (later(8), "5 5 5 5 5 5 5 5", {6: 13, 5: KEPT}),
    (later(8), "5 5 5 5 5 5 5 5 9", {6: 13, 7: KEPT}),
    (later(8), "9 5 5 5 5 5 5 5", {6: KEPT}),
    (counted(8), "5 5 5 5 5 5 5 5", {5: KEPT}),
    (counted_beside(7), "5", {5: KEPT}),
    # as many as there may be
    (AT_LIMIT, "128 " * 28 + "7 128 128 128 128", {6: 48, 5: KEPT, 7: KEPT}),
    (AT_LIMIT, "128 " * 28 + "7 128 128 128", {6: KEPT, 5: KEPT}),
    (AT_LIMIT, "128 " * 27 + "7 128 128 128 128", {6: KEPT}),
    (AT_LIMIT, "128 " * 28 + "64 128 128 128 128 128 128", {5: 41, 6: KEPT}),
    (AT_LIMIT, "128 " * 28 + "7 128 7 128 128 128 128", {5: 41, 6: 48}),
    # rules without ff
    ("2", "0 5 255", {0: KEPT, 255: KEPT}),
    (counted(7), "5 5 5", {5: KEPT}),
]

# A rule, kept scans that violate it, and the place of the first that does.
UNFIT = [
    (POOL, "37 5", 1),
    (POOL, "37 5 5", 1),
    (POOL, "37 5 128 37 5", 1),
    (POOL, "37 128 37 5 9", 3),
    (RETURNING, "5", 0),
    (RETURNING, "5 37 5", 0),
    (RETURNING, "37 37 5", 2),
    (BESIDE, "5", 0),
    (NEVER_IN_ONE, "6 6", 1),
    (BRANCHES, "5 7", 1),
    (BRANCHES, "5 6 7", 1),
    (SECOND, "5 6 6 7 7", 2),
    (ONCE, "7 103 199 103 7", 3),
    (CHAIN, "0 " * 63, 62),
    (CHAIN, "0 " * 64, 62),
    (LATER, "5 0 0 0 0 0 0 6", 7),
    (later(8), "5 0 0 0 0 0 0 0 6", 8),
    (AT_LIMIT, "128 " * 28 + "7 128 128 128 128 6 5", 33),
]

# A refused rule, kept scans, and the answer whatever the scan is.
REFUSED = [
    ("", "37 5", "refused 1 at 0"),
    (POOL[:-2], "37 5", "refused 1 at 22"),
    (ONE + "5 0 8", "5", "refused 2 at 6"),
    (POOL + " 2", "37 5", "refused 3 at 23"),
    (ANY + "5 0 " * 64 + "3", "0 " * 64, "refused 4 at 132"),
    ("1 1 32 5 5 0 3", "5", "refused 5 at 0"),
    (ONE + "4 5 0 3 5 1 3", "5", "refused 6 at 8"),
    (ONE + CANCEL + "6 4 5 0 3 5 1 6 4 5 0 3 7 0", "5", "refused 7 at 20"),
    ("3", "5", "refused 8 at 0"),
    (ONE + "4 5 0 3 3", "", "refused 8 at 0"),
    (ONE + "4 5 0 3 3", "5", "refused 8 at 0"),
    (counted(10), "5", "refused 9 at 0"),
    (later(10), "5 0 0 0 0 0 0 0 0 0 6", "refused 9 at 0"),
    (OVER_LIMIT, "128 " * 29 + "7 128 128 128 128 6 5", "refused 9 at 0"),
    (OVER_LIMIT, "", "refused 9 at 0"),
    (TOO_WIDE, "5", "refused 9 at 0"),
]


def reason_line(node):
    return "kept" if node is KEPT else f"node {node}"


def answers():
    """Each rule file with kept scans, a scan and the line that answers why it is dropped."""
    typed = [(*case, scan, reason_line(node)) for *case, nodes in REASONS for scan, node in nodes.items()]
    typed += [(*case, scan, f"refused 17 at {place}") for *case, place in UNFIT for scan in (0, 5, 255)]
    typed += [(*case, scan, line) for *case, line in REFUSED for scan in (0, 5)]
    return [(bytes_of(text), bytes_of(kept), scan, line) for text, kept, scan, line in typed]
