"""Writes what the program `duty_laps` reads and what it must answer, from the Python alone: by violation, which is held
against the Python equations.

With --check nothing is written, and the files are compared with what would be.
"""
from compare import expect
from equations import Equations
from expected import digest, is_check, settle, three_bytes
from rules import read_rule
from sifting import Sifting, is_violated

SCANS = 65536
RULES, LAPS = 4, 3

# As in bench/run: 26 of the 256 codes are always dropped, and the last six kept scans make 64 equations.
TENTH = bytes([1, 255, 0, 31, 1, 1, 0, 25, 1, 170, 0, 31, 6, 4, 5, 0, 7, 0, 4, 5, 1, 3, 5, 2] + 6 * [5, 0] + [2])


def made_scans():
    """The scans of a lap."""
    scans, x = bytearray(), 1
    for _ in range(SCANS):
        x = (x * 75 + 74) % 65537
        scans.append(x % 256)
    return bytes(scans)


def by_violation(rule):
    """Where a rule begins, and what it answers to a scan: where it goes on, or None where it would drop the scan."""
    sifting = Sifting(rule)

    def answer(left, scan):
        after = sifting.after(left, scan)
        return None if is_violated(after) else after

    return sifting.left, answer


def by_equations(rule):
    """The same, from equation to equation."""
    equations = Equations(rule)
    return equations.first, lambda equation, scan: equations.answers(equation)[scan]


def verdicts_on_duty(rules, scans):
    """The verdict on each scan: 0 kept, 1 dropped. A scan that no rule would drop moves all of them."""
    states, answers = [list(part) for part in zip(*rules)]
    verdicts = bytearray()
    for scan in scans:
        nexts = [answer(state, scan) for answer, state in zip(answers, states)]
        verdicts.append(None in nexts)
        if None not in nexts:
            states = nexts
    return bytes(verdicts)


def main():
    checks = is_check(__doc__)
    rule = read_rule(TENTH)
    scans = made_scans() * LAPS
    verdicts = verdicts_on_duty([by_violation(rule) for _ in range(RULES)], scans)
    expect(verdicts == verdicts_on_duty([by_equations(rule) for _ in range(RULES)], scans), "the verdicts on duty")
    stdin = bytes([RULES]) + three_bytes(LAPS) + three_bytes(len(TENTH)) + TENTH
    line = f"{verdicts.count(0)} {verdicts.count(1)} {digest(verdicts[-SCANS:])}"
    settle("duty_laps", stdin, [line], checks)
    print(f"{len(scans)} scans under {RULES} rules, {verdicts.count(1)} dropped")


if __name__ == "__main__":
    main()
