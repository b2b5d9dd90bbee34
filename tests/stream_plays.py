"""Streams of scans as calls of a run, held against sifting: under rules, and over tables that no rule has."""
import violation
from compare import expect
from compare_runs import check_conserved
from equations import CODES, DESK
from expected import MOST_ENTRIES
from rules import read_rule
from sifting import Sifting
from stream_faults import ENTRIES, changed, enough, harmless_change, lengths, refused_call
from stream_scans import halves, pieces, singles, steered
from stream_script import MOST_BYTES

# The share of scans that are dropped, where some can be.
RATES = [0, 0.4, 0.7, 0.9, 1]

# What the table has behind the rows: the first entry, and the step from each entry to the next.
BEHIND = [(0, 0), (DESK.mark, 0), (DESK.mark - 1, 0), (3, 263), (255, 0)]


def fit_call(random, script, scans):
    """A call that isn't refused. Gives the verdicts."""
    sizes = [enough(random, len(scans)) for _ in range(2)]
    if random.randrange(300) == 0:
        sizes[random.randrange(2)] = MOST_BYTES
    ran, output, verdicts = script.call(scans, lengths(random, script), *sizes)
    expect(ran.refusal is None, "a call", str(ran))
    check_conserved(scans, ran, output, verdicts)
    return bytes(verdicts[: len(scans)])


def play(random, script, rule, split):
    """A stream from its start, split into calls. Between them stand some that are refused, and some entries behind
    the rows are changed. Gives the verdicts."""
    script.begin()
    sifting = Sifting(rule)
    given = b""
    for scans in split:
        if random.randrange(4) == 0:
            refused_call(random, script, random.choice([scans, scans, b""]))
        if random.randrange(12) == 0:
            with harmless_change(random, script):
                verdicts = fit_call(random, script, scans)
        else:
            verdicts = fit_call(random, script, scans)
        expect(verdicts == sifting.sift(scans), "sifting", list(scans))
        given += verdicts
    script.tally["streams"] += 1
    script.tally["streams that are kept"] += 1 not in given
    script.tally["streams that are dropped"] += 0 not in given
    return given


def play_rule(random, script, number, data):
    """Two streams of a rule. How they are split and how many scans are dropped changes from rule to rule. The table is
    prepared anew now and then; else the rows of earlier rules stand behind those of this one."""
    rule = read_rule(data)
    if number % 16 == 0:
        script.prepare(*BEHIND[number // 16 % len(BEHIND)])
    script.fill(data)
    script.tally["rules"] += 1
    for turn in (2 * number, 2 * number + 1):
        scans = steered(random, rule, random.randrange(8, 33), RATES[turn % len(RATES)])
        by_violation = bytes(violation.verdicts(rule, list(scans)))
        expect(Sifting(rule).sift(scans) == by_violation, "violation", list(scans))
        ways = [[scans], halves(random, scans), singles(scans[:14])]
        ways += [pieces(random, scans, most) for most in (4, 12)]
        play(random, script, rule, ways[turn // len(RATES) % len(ways)])


def play_pair(random, script, number, pair):
    """One stream, split in one way, under two rules that drop alike. It is made for one of them by turns."""
    scans = steered(random, read_rule(pair[number % 2]), random.randrange(8, 33), RATES[number % len(RATES)])
    split = pieces(random, scans, 12)
    verdicts = []
    for data in pair:
        script.fill(data)
        verdicts.append(play(random, script, read_rule(data), split))
    expect(verdicts[0] == verdicts[1], "a pair", list(pair[0]), list(pair[1]), list(scans))
    script.tally["pairs"] += 1


def play_every_way(random, script, data):
    """One stream in two parts, wherever they part; in single scans; whole; and between empty calls."""
    rule = read_rule(data)
    script.prepare(0, 0)
    script.fill(data)
    scans = steered(random, rule, 16, 0.6)
    ways = [[scans[:at], scans[at:]] for at in range(len(scans) + 1)]
    for split in ways + [singles(scans), [scans], [b"", scans, b"", b""]]:
        play(random, script, rule, split)


def play_refused_rule(random, script, data, refused):
    """A refused file changes no entry of the table: the stream goes on over it, once count and state are set again."""
    rule = read_rule(data)
    script.fill(data)
    count, sifting = script.count, Sifting(rule)
    scans = steered(random, rule, 20, 0.5)
    expect(fit_call(random, script, scans[:10]) == sifting.sift(scans[:10]), "before", list(refused))
    state = script.state
    script.fill(refused)
    ran, _, _ = script.call(scans[10:], MOST_ENTRIES, 10, 10)
    expect(str(ran) == "refused 16 at 0 0 0 0", "count 0", str(ran))
    script.set_count(count)
    script.set_state(state)
    expect(fit_call(random, script, scans[10:]) == sifting.sift(scans[10:]), "after", list(refused))


def play_next_row(random, script, data):
    """With one more than the count, the row behind the last counts too, here one of zeros but for its last entry: the
    call is refused where that is too high. The rule's own rows never lead there."""
    rule = read_rule(data)
    script.prepare(0, 0)
    script.fill(data)
    count, behind = script.count, script.rows() + CODES
    with changed(script.set_count, count + 1, script.count):
        wrong = [(entry, 16) for entry in (count + 1, *ENTRIES) if entry > count]
        for entry, number in wrong + [(DESK.mark, None), (count, None), (0, None)]:
            script.write(behind - 1, [entry])
            script.begin()
            scans = steered(random, rule, 9, 0.5)
            ran, _, verdicts = script.call(scans, behind, 9, 9)
            expect((ran.refusal and ran.refusal.number) == number, "next row", entry)
            expect(number or Sifting(rule).sift(scans) == verdicts, "next row", list(scans))
        script.set_state(count)
        fit_call(random, script, bytes([255, 0, 255]))


def play_long(random, script, data, length):
    """A long stream in one call, and a part of it in one."""
    rule = read_rule(data)
    script.prepare(1, 3)
    script.fill(data)
    scans = steered(random, rule, length, 0.5)
    play(random, script, rule, [scans])
    play(random, script, rule, [scans[: length // 3]])


def run_foreign(random, script, count):
    """Runs over a table of no rule. They begin at any equation."""
    script.tally["foreign tables"] += 1
    for most in (1, 5, 40):
        script.set_state(random.choice([0, count - 1, random.randrange(count)]))
        for scans in pieces(random, random.randbytes(random.randrange(5, 60)), most):
            if random.randrange(4) == 0:
                refused_call(random, script, scans)
            fit_call(random, script, scans)


def play_foreign(random, script, count, rate):
    """A table of no rule, with entries at random."""
    drops = [random.random() < rate for _ in range(CODES * count)]
    script.prepare(*random.choice(BEHIND))
    script.write(0, [DESK.mark if is_drop else random.randrange(count) for is_drop in drops])
    script.set_count(count)
    run_foreign(random, script, count)
