"""Calls that are refused, each put between two calls of a stream. The stream goes on as if they had not been made.

Each fault is given its number by hand, from the paper's table of refusals."""
from contextlib import contextmanager, nullcontext

from compare import expect
from equations import DESK, LARGEST_TABLE, PROGRAM_TABLE
from expected import MOST_ENTRIES
from stream_script import MOST_BYTES

# Counts that are too high, with some whose rows would take a multiple of 2^64 entries or bytes, or one row more.
COUNTS = [1001, 1002, 65535, 65536, 2**55, 2**55 + 1, 2**56, 2**56 + 1, 2**63, 2**64 - 1]

# States that are too high under any count, with some whose rows would begin at a multiple of 2^64, or one row after.
STATES = [1000, 1001, 65535, 65536, 2**55, 2**55 + 1, 2**56, 2**56 + 1, 2**63, 2**64 - 1]

# Entries at the edges of what one byte and two can hold, and of what a table may have.
ENTRIES = [254, 255, 256, 257, 511, 999, 1000, 1001, 65280, 65534]


@contextmanager
def changed(change, to, back):
    """Changes a script for the calls inside, and then changes it back."""
    change(to)
    yield
    change(back)


def other_entry(script, place, entry):
    return changed(lambda some: script.write(place, [some]), entry, script.table[place])


def too_high(random, count):
    """An entry that is too high under a count."""
    return random.choice([count, random.randrange(count, DESK.mark)] + [entry for entry in ENTRIES if entry >= count])


def wrong_count(random, script):
    """None, too many, or one less where the last equation is an entry. With one more the next row may be fit."""
    last = script.count - 1
    less = [last] if last in script.table[: script.rows()] else []
    return changed(script.set_count, random.choice([0, 0] + less + COUNTS), script.count)


def wrong_state(random, script):
    return changed(script.set_state, random.choice([script.count, script.count + 1] + STATES), script.state)


def wrong_entry(random, script):
    """An entry that is too high: the first, the last or another."""
    last = script.rows() - 1
    place = random.choice([0, last, last, random.randrange(last)])
    return other_entry(script, place, too_high(random, script.count))


def enough(random, size):
    """Room for so many scans: just enough, a little more or much more, as far as the program has it."""
    return min(size + random.choice([0, 0, 0, 1, 2, 9, 50]), MOST_BYTES)


def lengths(random, script):
    """How much of the table is lent: the rows alone, a little more, or much more."""
    more = [size for size in (PROGRAM_TABLE, 40000, LARGEST_TABLE, MOST_ENTRIES) if size >= script.rows()]
    return random.choice([script.rows(), script.rows(), script.rows() + 1] + more)


def short_lengths(random, script):
    """Less of the table than its rows."""
    rows = script.rows()
    return random.choice([rows - 1, rows - 1, rows - 256, 0, random.randrange(rows)])


def short_sizes(random, size):
    """Sizes of the buffers, of which one is or both are too short for the scans."""
    short = random.choice([size - 1, size - 1, 0, random.randrange(size)])
    other = enough(random, size)
    return random.choice([(short, other), (other, short), (short, short), (short, size), (size, short)])


def refused_call(random, script, scans):
    """A call that is refused, by 15 where both apply."""
    changes = [wrong_count, wrong_state, wrong_entry]
    is_cut, is_changed = random.randrange(4) == 0, random.randrange(3) > 0
    is_short = len(scans) > 0 and (random.randrange(3) == 0 or not (is_cut or is_changed))
    is_changed = is_changed or not (is_cut or is_short)
    lent = short_lengths(random, script) if is_cut else lengths(random, script)
    sizes = short_sizes(random, len(scans)) if is_short else [enough(random, len(scans)) for _ in range(2)]
    with random.choice(changes)(random, script) if is_changed else nullcontext():
        state = script.state
        ran, _, _ = script.call(scans, lent, *sizes)
        number = 15 if is_short else 16
        expect(str(ran) == f"refused {number} at 0 {state} 0 0", "a fault", str(ran))
        script.tally["15 and 16"] += is_short and (is_cut or is_changed)
        script.tally["16 with no scans"] += not scans


def harmless_change(random, script):
    """An entry just behind the rows, or further."""
    place = random.choice([script.rows(), script.rows(), random.randrange(script.rows(), MOST_ENTRIES)])
    return other_entry(script, place, random.choice([too_high(random, script.count), DESK.mark, 0]))
