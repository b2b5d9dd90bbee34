"""The input of the test program `streams`, record by record, and the lines that it must print."""
from array import array
from collections import Counter
from functools import cache
from itertools import chain, groupby

import stream_sorts
from equations import CODES, DESK, fill, said
from expected import MOST_ENTRIES, bytes_of_entries, digest, eight_bytes, three_bytes
from rules import Refusal
from running import run

# The program's space for scans and for each buffer.
MOST_BYTES = 65536

# Runs of at least so many equal entries are written as one record.
LEAST_EQUAL = 8


@cache
def cycle(first, step):
    return bytes((first + step * i) % 256 for i in range(256))


def prepared(size, first, step):
    """A buffer with first + step × i, modulo 256, in byte i."""
    return bytearray((cycle(first, step) * (size // 256 + 1))[:size])


def two_bytes(number):
    return number.to_bytes(2, "big")


class Records:
    """Records for a table, which the script holds as the program does. The tally has how often each answer came."""

    def __init__(self):
        self.stdin = bytearray()
        self.lines = []
        self.tally = Counter()
        self.turn = 0
        self.table = array("H", bytes(2 * MOST_ENTRIES))

    def record(self, kind, *body):
        self.stdin += kind + b"".join(body)
        self.turn += 1

    def prepare(self, first, step, top=DESK.mark, place=0, length=MOST_ENTRIES):
        """So many entries from a place on become first + step × i, modulo top + 1."""
        period = 1 if step == 0 else min(length, top + 1)
        entries = array("H", [(first + step * i) % (top + 1) for i in range(period)])
        self.table[place : place + length] = (entries * (length // period + 1))[:length]
        self.record(b"f", three_bytes(place), three_bytes(length), *map(two_bytes, (first, step, top)))

    def write(self, place, entries):
        self.table[place : place + len(entries)] = array("H", entries)
        self.record(b"w", three_bytes(place), three_bytes(len(entries)), bytes_of_entries(entries))

    def write_runs(self, place, entries):
        """Writes the entries by runs of equal ones, of which the short ones are written together."""
        for is_long, runs in groupby([list(run) for _, run in groupby(entries)], lambda run: len(run) >= LEAST_EQUAL):
            for part in runs if is_long else [list(chain(*runs))]:
                if is_long:
                    self.prepare(part[0], 0, DESK.mark, place, len(part))
                else:
                    self.write(place, part)
                place += len(part)

    def buffers(self, *sizes):
        """The output and the verdicts, of these sizes, as the program prepares them for the next record."""
        return prepared(sizes[0], self.turn % 256, 7), prepared(sizes[1], self.turn % 251, 11)


class Script(Records):
    """Holds also the count and the state that the records so far have set."""

    def __init__(self):
        super().__init__()
        self.count = 0
        self.state = 0

    def fill(self, data):
        counted = fill(data, self.table)
        self.count = 0 if isinstance(counted, Refusal) else len(counted)
        self.state = 0
        self.lines.append(said(counted))
        self.record(b"r", three_bytes(len(data)), data)

    def set_count(self, count):
        self.count = count
        self.record(b"n", eight_bytes(count))

    def set_state(self, state):
        self.state = state
        self.record(b"s", eight_bytes(state))

    def begin(self):
        self.state = 0
        self.record(b"b")

    def rows(self):
        """How many entries the rows take."""
        return CODES * self.count

    def call(self, scans, lent, output_size, verdicts_size):
        """A call with so many entries of the table and bytes of each buffer. Gives what it returns, and the buffers then."""
        output, verdicts = self.buffers(output_size, verdicts_size)
        table = self.table[:lent]
        ran = run(table, self.count, self.state, scans, output, verdicts)
        self.tally.update(stream_sorts.of_call(table, self.count, self.state, scans, ran))
        self.state = ran.state
        self.lines.append(f"{ran} {digest(output)} {digest(verdicts)}")
        sizes = [three_bytes(size) for size in (lent, output_size, verdicts_size, len(scans))]
        self.record(b"c", *sizes, scans)
        self.tally["calls"] += 1
        self.tally["scans"] += len(scans)
        self.tally["empty calls"] += not scans
        self.tally["kept"] += ran.kept
        self.tally["dropped"] += ran.dropped
        self.tally["fit" if ran.refusal is None else f"refused {ran.refusal.number}"] += 1
        return ran, output, verdicts
