"""Which scans of a stream are dropped, by violation alone: no equations and no table are used."""
from functools import cache


class Sifting:
    """Sifts the scans of a stream under a rule. A scan is dropped where the kept ones before it and then the scan
    violate the rule.

    In place of the kept scans it holds what they leave of the rule: parts of its formula, each with the maxes around
    it, innermost first. The kept scans and then any codes violate the rule exactly when the codes violate one of
    these parts. Each part is an ff or a necessity."""

    def __init__(self, rule):
        self.covered = [pattern.codes() for pattern in rule.patterns]
        self.after = cache(self.after)
        self.left = frozenset(settled(rule.formula, ()))

    def after(self, left, code):
        """What the code leaves of the parts: the bodies of the necessities whose pattern covers it."""
        bodies = [(part.body, maxes) for part, maxes in left if part.kind == 5 and code in self.covered[part.pattern]]
        return frozenset(found for part, maxes in bodies for found in settled(part, maxes))

    def sift(self, scans):
        """The verdicts on the next scans of the stream: 0 kept, 1 dropped."""
        verdicts = bytearray()
        for scan in scans:
            left = self.after(self.left, scan)
            verdicts.append(is_violated(left))
            if not is_violated(left):
                self.left = left
        return bytes(verdicts)


def kept(scans, verdicts):
    """The scans with verdict 0."""
    return [scan for scan, verdict in zip(scans, verdicts) if verdict == 0]


def settled(part, maxes):
    """The ffs and the necessities that the violation of a part comes down to before any code is looked at."""
    if part.kind == 4:
        return settled(part.left, maxes) + settled(part.right, maxes)
    if part.kind == 6:
        return settled(part.body, (part,) + maxes)
    if part.kind == 7:
        return settled(maxes[part.depth].body, maxes[part.depth :])
    return [] if part.kind == 2 else [(part, maxes)]


def is_violated(parts):
    """Whether every list of codes violates one of the parts: ff is among them."""
    return any(part.kind == 3 for part, _ in parts)
