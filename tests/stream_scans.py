"""Scans for a rule, with many or few that are dropped, and ways to split them into calls."""
from functools import cache

from rules import SLOTS
from sifting import Sifting, is_violated


def ends(random, pattern):
    """The codes at both edges of a pattern, and those beside them. One that goes round has its edges within a kind; one
    that is empty has its slots, and these within any kind."""
    covered = sorted(pattern.codes())
    if covered and not pattern.goes_round():
        return {covered[0], covered[-1], (covered[0] - 1) % 256, (covered[-1] + 1) % 256}
    kind = random.choice(covered or range(256)) // SLOTS
    slots = [pattern.first, pattern.last, (pattern.first - 1) % SLOTS, (pattern.last + 1) % SLOTS]
    return {SLOTS * kind + slot for slot in slots}


def candidates(random, rule):
    """Codes at the edges of the patterns and beside them, one inside each that isn't empty, and a few of any kind."""
    codes = {random.randrange(256) for _ in range(3)}
    for pattern in rule.patterns:
        codes |= ends(random, pattern) | {*random.sample(sorted(pattern.codes()), min(pattern.count(), 1))}
    return sorted(codes)


def reached(sifting, codes):
    """What kept scans can leave of a rule, with what each code that is kept leaves then."""
    kept = {}
    found = [sifting.left]
    for left in found:
        if left not in kept:
            after = {code: sifting.after(left, code) for code in codes}
            kept[left] = {code: then for code, then in after.items() if not is_violated(then)}
            found += kept[left].values()
    return kept


def distances(kept, codes):
    """How many kept scans it takes at least until one can be dropped, where that can come at all."""
    before = {left: [] for left in kept}
    for left in kept:
        for then in set(kept[left].values()):
            before[then].append(left)
    distance = {left: 0 for left in kept if len(kept[left]) < len(codes)}
    found = list(distance)
    for then in found:
        for left in before[then]:
            if left not in distance:
                distance[left] = distance[then] + 1
                found.append(left)
    return distance


class Steering:
    """Picks scans for a rule among some codes, by what the kept scans leave of the rule."""

    def __init__(self, rule, codes):
        self.sifting = Sifting(rule)
        self.codes = codes
        self.kept = reached(self.sifting, codes)
        self.distance = distances(self.kept, codes)
        self.choices = cache(self.choices)

    def choices(self, left):
        """The codes that are dropped; the kept ones that lead nearer to a drop; those after which one can come; and all kept ones."""
        kept, distance = self.kept[left], self.distance
        dropped = [code for code in self.codes if code not in kept]
        lasting = [code for code, then in kept.items() if then in distance]
        nearer = [code for code in lasting if distance[kept[code]] < distance[left]]
        return dropped, nearer, lasting, list(kept)

    def pick(self, random, left, rate):
        dropped, nearer, lasting, any_kept = self.choices(left)
        if random.random() < rate:
            some = dropped or nearer or lasting or any_kept
        elif random.randrange(40) > 0:
            some = lasting or any_kept or dropped
        else:
            some = any_kept or dropped
        return random.choice(some)


def steered(random, rule, length, rate):
    """So many scans. Where a scan can be dropped, about that share of them are. After most of the others a scan can
    be dropped again, at once or later."""
    steering = Steering(rule, candidates(random, rule))
    scans = []
    for _ in range(length):
        scans.append(steering.pick(random, steering.sifting.left, rate))
        steering.sifting.sift(scans[-1:])
    return bytes(scans)


def pieces(random, scans, most):
    """The scans in pieces of at most so many, some of which are empty."""
    split, at = [], 0
    while at < len(scans):
        size = random.choice([1, random.randrange(most + 1), random.randrange(1, most + 1)])
        split.append(scans[at : at + size])
        at += size
    return split + [b""] * random.randrange(2)


def halves(random, scans):
    at = random.randrange(len(scans) + 1)
    return [scans[:at], scans[at:]]


def singles(scans):
    return [scans[at : at + 1] for at in range(len(scans))]
