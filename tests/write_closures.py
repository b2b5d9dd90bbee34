"""Writes what the test program `closures` reads and what it must answer, from the Python alone: from counting and filling,
runs and judgments of the second implementation.

Its standard input is a list of records, which the program's first lines describe. With --check nothing is written, and the
files are compared with what would be.
"""
import known_models
from compare import expect
from equations import CODES, DESK, fill, rows, said, within
from expected import MOST_ENTRIES, digest, eight_bytes, is_check, lacking, settle, three_bytes, told
from judging import judge
from known import POOL, answers, bytes_of, counted
from rules import Refusal
from running import run
from stream_script import Records

# Rules of one equation, of 3, of 4 whose first two drop alike, of 256, and of more than the desk takes; and scans of all sorts for them.
NEVER, POOL_RULE, BRANCHES = map(bytes_of, ("2", POOL, "1 1 5 5 1 2 5 5 4 5 0 5 1 3 5 1 5 1 3"))
PAST_BYTES, MANY = bytes_of(counted(8)), bytes_of(counted(10))
RULES = [NEVER, POOL_RULE, BRANCHES, PAST_BYTES, MANY]
SCANS = bytes_of("37 5 128 5 37 5") + bytes(range(256)) * 2

# Where the table is filled: at its start, in row 1, a row before its end and at its end.
PLACES = [0, CODES, MOST_ENTRIES - CODES, MOST_ENTRIES]

# How much is lent of the table, of the output and of the verdicts: enough, a byte too little of either, and nothing.
LENT = [(3 * CODES, 6, 6), (3 * CODES, 6, 5), (3 * CODES, 5, 6), (0, 6, 6)]

# In so many answers at least there has to be each of these.
LEAST = 5
SORTS = ["equations", "fit", "refused 9", "refused 10", "refused 15", "refused 16", "meets", "breaks"]


class Script(Records):
    """Holds also the count and the state that the records so far have set."""

    def __init__(self):
        super().__init__()
        self.count = self.state = 0

    def answer(self, line, kind, *body, ends=True):
        """The record prints the line, and where it doesn't end it, the next record does."""
        self.lines.append(line)
        self.record(kind, *body)
        if not ends:
            self.record(b"n")
        words = line.split()
        self.tally[" ".join(words[:2]) if words[0] == "refused" else words[0]] += 1

    def count_equations(self, rule):
        self.answer(said(rows(rule)), b"o", three_bytes(len(rule)), rule, ends=False)
        self.answer(said(rows(rule)), b"p", three_bytes(len(rule)), rule)

    def fill_within(self, place, limit, rule):
        lent = self.table[place:]
        filled = fill(rule, lent, within(limit))
        self.table[place:] = lent
        self.count = 0 if isinstance(filled, Refusal) else len(filled)
        self.state = 0
        self.answer(said(filled), b"f", eight_bytes(place), eight_bytes(limit), three_bytes(len(rule)), rule)

    def check(self, count):
        ran = run(self.table, count, 0, b"", bytearray(), bytearray())
        self.answer("fit" if ran.refusal is None else str(ran.refusal), b"k", eight_bytes(count), ends=False)

    def call(self, scans, lent, output_size, verdicts_size):
        output, verdicts = self.buffers(output_size, verdicts_size)
        ran = run(self.table[:lent], self.count, self.state, scans, output, verdicts)
        self.state = ran.state
        sizes = [three_bytes(size) for size in (lent, output_size, verdicts_size, len(scans))]
        self.answer(f"{ran} {digest(output)} {digest(verdicts)}", b"c", *sizes, scans)

    def judge(self, rule, model):
        answer = judge(rule, model, self.table)
        self.answer(answer, b"j", three_bytes(len(rule)), rule, three_bytes(len(model)), model, ends=False)

    def digest(self, *contents):
        self.lines.append("".join(f" {digest(content)}" for content in contents))
        self.record(b"d", *[part for content in contents for part in (three_bytes(len(content)), content)])

    def last(self, number):
        self.lines.append(f"{number % 256} {number % 65536}")
        self.record(b"l", eight_bytes(number))
        self.record(b"n")

    def fail(self):
        """A run that fails has no line, and what comes after it isn't answered."""
        self.record(b"e", *[three_bytes(size) for size in (0, 1, 1, 1)], b"\5")
        self.stdin += b"k" + eight_bytes(1)


def whole_script():
    script = Script()
    for rule in [file for file, _ in answers()] + RULES:
        script.count_equations(rule)
    for rule in RULES:
        for place in PLACES:
            for limit in (0, 1, 3, 256, DESK.most, 2**64 - 1):
                script.fill_within(place, limit, rule)
        script.fill_within(0, DESK.most, rule)
        for count in (0, 1, 3, 256, 1000, 1001):
            script.check(count)
        for lent in LENT:
            script.call(SCANS[:6], *lent)
        for at in range(6, len(SCANS), 50):
            scans = SCANS[at : at + 50]
            script.call(scans, MOST_ENTRIES, len(scans) + at % 3, len(scans) + at % 2)
    for rule, model, answer in known_models.judged():
        script.judge(rule, model)
        expect(script.lines[-1] == answer, "a typed judgment")
    script.judge(POOL_RULE, b"")
    script.judge(b"", b"")
    for size in (0, 1, 2, 255, 4096):
        script.digest(bytes([255]) * size, bytes(place % 251 for place in range(4096 - size)))
    for number in (0, 255, 256, 511, 65535, 65536, 2**32 + 7, 2**64 - 1):
        script.last(number)
    script.fail()
    return script


def main():
    checks = is_check(__doc__)
    script = whole_script()
    expect(not lacking(script.tally, SORTS, LEAST), lacking(script.tally, SORTS, LEAST))
    settle("closures", bytes(script.stdin), script.lines, checks)
    print(f"{script.turn} records: {told(script.tally)}")


if __name__ == "__main__":
    main()
