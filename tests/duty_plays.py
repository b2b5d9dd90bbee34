"""Days of rules on duty, by violation: rules that come and go at random, rules with one table, and rules beside the one that joins them."""
from dataclasses import dataclass

import duty_faults
import violation
from compare import expect
from compare_runs import check_conserved
from duty import MOST_ON_DUTY, Spell
from duty_scans import Team
from equations import CODES, PROGRAMS, rows
from joining import joined
from merging import short_rows
from rules import Refusal, read_rule
from stream_faults import enough
from stream_plays import BEHIND, RATES
from stream_scans import pieces
from expected import MOST_ENTRIES


@dataclass(frozen=True)
class Table:
    """Where a rule's table stands, and whether it is the short one."""

    data: bytes
    is_short: bool
    base: int
    count: int

    @property
    def end(self):
        return self.base + CODES * self.count


def gap(random, spare):
    """How far behind the last table the next one begins."""
    return min(random.choice([0, 0, 1, 255, 256, random.randrange(600)]), spare)


def set_up(random, script, files):
    """Fills tables side by side in any order, long or short ones. Gives them in the order of the files."""
    kinds = [random.randrange(3) == 0 for _ in files]
    sizes = [CODES * len((short_rows if is_short else rows)(data)) for data, is_short in zip(files, kinds)]
    spare = MOST_ENTRIES - sum(sizes)
    tables, at = {}, 0
    for place in random.sample(range(len(files)), len(files)):
        skipped = gap(random, spare)
        spare -= skipped
        counted = script.fill(at + skipped, files[place], kinds[place])
        tables[place] = Table(files[place], kinds[place], at + skipped, len(counted))
        at = tables[place].end
    return [tables[place] for place in range(len(files))]


class Day:
    """A day on which these rules may come on, from nobody on duty."""

    def __init__(self, random, script, tables):
        script.new_day()
        self.random = random
        self.script = script
        self.tables = tables
        self.team = Team(random, [table.data for table in tables])
        self.on = {}

    def lent(self, end):
        return self.random.choice([end, end, MOST_ENTRIES, self.random.randrange(end, MOST_ENTRIES + 1)])

    def come_on(self, table, number):
        spell = Spell(table.data, table.is_short)
        refusal = self.script.come_on(number, self.lent(table.end), table.base, table.count, spell)
        expect(refusal is None, "a coming", str(refusal))
        self.on[number] = table
        self.team.come_on(number, table.data)

    def go_off(self, number):
        expect(self.script.go_off(number) is None, "a going", number)
        self.forget(number)

    def forget(self, number):
        del self.on[number]
        self.team.go_off(number)

    def run(self, scans, verdicts, sizes=None):
        """A run that isn't refused, with the verdicts that sifting gives."""
        end = max([table.end for table in self.on.values()], default=0)
        sizes = sizes or [enough(self.random, len(scans)) for _ in range(2)]
        ran, output, given = self.script.run(scans, self.lent(end), *sizes)
        expect(ran.refusal is None, "a run", str(ran.refusal))
        check_conserved(scans, ran, output, given)
        expect(bytes(given[: len(scans)]) == verdicts, "sifting", list(scans))
        return ran

    def run_some(self, most, rate):
        self.run(*self.team.scans(self.random, self.random.randrange(most + 1), rate))

    def tables_on(self):
        return [self.on[number] for number in self.script.desk.numbers()]

    def fault(self):
        """One of the calls that are refused, or a state that is handed in."""
        given, table = (self.random, self.script), self.random.choice(self.tables)
        scans, way = self.random.randbytes(self.random.randrange(6)), self.random.randrange(24)
        if way < 9:
            duty_faults.refused_coming(*given, table)
        elif way < 12:
            duty_faults.refused_going(*given)
        elif way < 18:
            duty_faults.refused_run(*given, scans, self.tables_on())
        elif way < 22:
            duty_faults.hand_in_remains(*given)
        elif way == 22:
            duty_faults.over_four(*given, table, scans)
        else:
            duty_faults.twice(*given, table, scans, *duty_faults.two_places(self.random))

    def a_number(self):
        """One that isn't on: one that was on before, or any."""
        before = [number for number in self.script.gone if number not in self.on]
        if before and self.random.randrange(2) == 0:
            return self.random.choice(before)
        return duty_faults.free_number(self.random, self.script.desk)

    def step(self, rate):
        ways = ["run"] * 5 + ["fault"] * 3
        ways += ["come"] * 6 if len(self.on) < MOST_ON_DUTY else []
        ways += ["go"] * 2 if self.on else []
        way = self.random.choice(ways)
        if way == "come":
            self.come_on(self.random.choice(self.tables), self.a_number())
        elif way == "go":
            self.go_off(self.random.choice(list(self.on)))
        elif way == "run":
            self.run_some(9, rate)
        else:
            self.fault()


def set_up_anew(random, script, number, files):
    """The tables are prepared anew now and then; else entries of earlier days stand between and behind them."""
    if number % 8 == 0:
        script.prepare(*BEHIND[number // 8 % len(BEHIND)])
    return set_up(random, script, files)


def new_day(random, script, number, files):
    return Day(random, script, set_up_anew(random, script, number, files))


def play_day(random, script, number, files):
    """Comings, goings, runs and faults at random."""
    day = new_day(random, script, number, files)
    for _ in range(random.randrange(6, 14)):
        day.step(RATES[number % len(RATES)])
    day.run_some(12, 0.6)


def play_again(random, script, number, files):
    """A rule goes off when it was moved, and comes on again under its number, behind another."""
    day = new_day(random, script, number, files)
    for table, name in zip(day.tables, random.sample(range(256), len(files))):
        day.come_on(table, name)
    day.run_some(12, 0.3)
    name = random.choice(list(day.on))
    table = day.on[name]
    for _ in range(2):
        day.go_off(name)
        day.run_some(6, 0.5)
        day.come_on(table, name)
        day.run_some(6, 0.8)


def play_one_table(random, script, number, data):
    """Four rules with one table, most of which come on after a run."""
    day = new_day(random, script, number, [data])
    for name in random.sample(range(256), MOST_ON_DUTY):
        day.come_on(day.tables[0], name)
        day.run_some(4, 0.2)
    day.run_some(9, 0.7)
    day.go_off(random.choice(list(day.on)))
    day.run_some(9, 0.7)


def come_together(random, day):
    """All rules come on, and no scan is kept between."""
    for table, name in zip(day.tables, random.sample(range(256), len(day.tables))):
        scans = day.team.dropped_now(random, 3) if random.randrange(2) else b""
        if scans or random.randrange(4) == 0:
            day.run(scans, b"\x01" * len(scans))
            day.script.tally["joins: scans dropped between comings"] += scans != b""
        day.come_on(table, name)


def told_of_scans(line):
    """Of a run's line with verdicts as long as the scans: how many were kept and dropped, and the digest of the verdicts."""
    fields = line.split(" ")
    return fields[-4], fields[-3], fields[-1]


def runs_of(day, split):
    """A run for each part. Gives what the lines tell of the scans, and the places of the rules that alone dropped one."""
    told, alone = [], set()
    for scans, verdicts in split:
        ran = day.run(scans, verdicts, (enough(day.random, len(scans)), len(scans)))
        told.append(told_of_scans(day.script.lines[-1]))
        alone |= {dropping.index(True) for dropping in ran.dropping if sum(dropping) == 1}
    return told, alone


def check_by_violation(one, split):
    """The joined rule has the same verdicts, by violation. It may have too many equations, but not too many patterns or nodes."""
    rule = read_rule(one)
    if not isinstance(rule, Refusal):
        scans, verdicts = [b"".join(parts) for parts in zip(*split)]
        expect(bytes(violation.verdicts(rule, list(scans))) == verdicts, "a joined rule, by violation", list(one), list(scans))


def play_alone(random, script, table, split, told):
    """The joined rule alone on the same scans. The lines have to tell the same."""
    day = Day(random, script, [table])
    day.come_on(table, random.randrange(256))
    expect(runs_of(day, split)[0] == told, "the lines of a joined rule", list(table.data))


def play_join(random, script, number, files):
    """Rules that come on together; and where the rule that joins them isn't refused, that rule alone."""
    one = joined(files)
    answer = rows(one)
    is_accepted = not isinstance(answer, Refusal)
    tables = set_up_anew(random, script, number, files + [one] * is_accepted)
    if not is_accepted:
        script.fill(random.randrange(MOST_ENTRIES), one)
    day = Day(random, script, tables[: len(files)])
    come_together(random, day)
    lengths = [len(part) for part in pieces(random, bytes(random.randrange(10, 30)), 9)]
    split = [day.team.scans(random, length, 0.5) for length in lengths]
    told, alone = runs_of(day, split)
    check_by_violation(one, split)
    if is_accepted:
        play_alone(random, script, tables[-1], split, told)
        script.tally["joins: each of several rules alone drops a scan"] += len(alone) > 1
    script.tally[f"joins: {len(files)} rules " + ("accepted" if is_accepted else f"refused {answer.number}")] += 1
    script.tally[f"joins: {len(files)} rules with over 128 equations"] += is_accepted and len(answer) > PROGRAMS.most
