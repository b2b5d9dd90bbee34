"""Scans for several rules on duty, picked for one of them at a time."""
from rules import read_rule
from sifting import is_violated
from stream_scans import Steering, candidates


class Team:
    """The rules that may be on duty, and what the kept scans leave of each that is, by its number."""

    def __init__(self, random, files):
        rules = {data: read_rule(data) for data in files}
        codes = sorted({code for rule in rules.values() for code in candidates(random, rule)})
        self.steering = {data: Steering(rule, codes) for data, rule in rules.items()}
        self.left = {}

    def come_on(self, number, data):
        self.left[number] = (data, self.steering[data].sifting.left)

    def go_off(self, number):
        del self.left[number]

    def take(self, scan):
        """The verdict on a scan. A kept one moves all rules."""
        thens = {number: (data, self.steering[data].sifting.after(left, scan)) for number, (data, left) in self.left.items()}
        is_dropped = any(is_violated(left) for _, left in thens.values())
        if not is_dropped:
            self.left = thens
        return is_dropped

    def pick(self, random, rate):
        if not self.left:
            return random.randrange(256)
        data, left = random.choice(list(self.left.values()))
        return self.steering[data].pick(random, left, rate)

    def scans(self, random, length, rate):
        """So many scans, and the verdicts on them. Where a rule can drop a scan, about that share of those that are picked for it are."""
        scans, verdicts = bytearray(), bytearray()
        for _ in range(length):
            scans.append(self.pick(random, rate))
            verdicts.append(self.take(scans[-1]))
        return bytes(scans), bytes(verdicts)

    def dropped_now(self, random, most):
        """Up to so many scans, each of which some rule drops at once, and so none of which is kept."""
        codes = [code for data, left in self.left.values() for code in self.steering[data].choices(left)[0]]
        return bytes(random.choice(codes) for _ in range(random.randrange(most + 1) if codes else 0))
