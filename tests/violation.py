"""Which lists of codes violate a rule, by the paper's "Meaning". No equations are used."""
from functools import cache


def violates(rule, codes):
    """Whether a list of codes violates a rule."""

    @cache
    def is_violated(part, maxes, at):
        """Whether the codes from that place on violate a part, the maxes around which are given, innermost first."""
        if part.kind == 3:
            return True
        if part.kind == 4:
            return is_violated(part.left, maxes, at) or is_violated(part.right, maxes, at)
        if part.kind == 5:
            is_covered = at < len(codes) and codes[at] in rule.patterns[part.pattern].codes()
            return is_covered and is_violated(part.body, maxes, at + 1)
        if part.kind == 6:
            return is_violated(part.body, (part,) + maxes, at)
        if part.kind == 7:
            return is_violated(maxes[part.depth].body, maxes[part.depth :], at)
        return False

    return is_violated(rule.formula, (), 0)


def verdicts(rule, scans):
    """Of each scan, whether it is dropped: it is where the kept ones before it and then the scan violate the rule."""
    kept, dropped = [], []
    for scan in scans:
        is_dropped = violates(rule, kept + [scan])
        dropped.append(is_dropped)
        if not is_dropped:
            kept.append(scan)
    return dropped
