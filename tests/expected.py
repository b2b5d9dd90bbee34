"""The input of a test program and its answer: written to its crate or, with --check, compared with what is there."""
import sys
from array import array
from argparse import ArgumentParser
from pathlib import Path

CRATES = Path(__file__).resolve().parent.parent / "crates"
PRIME = 1000000007

# The space for a table that the test programs have, in entries.
MOST_ENTRIES = 262144

# The entries of a fresh table are under a prime, and so none of them is the mark.
FRESH, STEP = 65521, 263
CYCLE = array("H", [STEP * i % FRESH for i in range(FRESH)]) * (MOST_ENTRIES // FRESH + 2)

# The folders of a crate that no script here writes.
SOURCES = {"src", "specs", "proofs", "must-fail", "out"}


def three_bytes(number):
    """A number as the test programs read it: three bytes, highest first."""
    return number.to_bytes(3, "big")


def eight_bytes(number):
    return number.to_bytes(8, "big")


def bytes_of_entries(entries):
    """Entries of a table as the test programs read them: two bytes each, highest first."""
    content = array("H", entries)
    if sys.byteorder == "little":
        content.byteswap()
    return content.tobytes()


def digest(content):
    """The bytes as one number in base 256, highest first, modulo a prime."""
    return int.from_bytes(content, "big") % PRIME


def table_digest(entries):
    """The entries as one number in base 65,536, highest first, modulo the prime. Their bytes make the same in base 256."""
    return digest(bytes_of_entries(entries))


def fresh_table(size, case):
    """The table that is lent in a case, counted from 0: entry i is case + 263 × i, modulo 65,521. It begins somewhere in
    the table of case 0."""
    start = case * pow(STEP, -1, FRESH) % FRESH
    return CYCLE[start : start + size]


def told(tally):
    """What was counted, each sort with its number."""
    return ", ".join(f"{number} {what}" for what, number in sorted(tally.items()))


def lacking(tally, sorts, least):
    """The sorts of which there are too few."""
    return [f"{tally[sort]} of {sort}" for sort in sorts if tally[sort] < least]


def told_of(tally, sorts):
    """What was counted beside the sorts, and which sort is the rarest."""
    rarest = min(sorts, key=lambda sort: tally[sort])
    others = {what: number for what, number in tally.items() if what not in sorts}
    return f"{told(others)}; of {len(sorts)} sorts the rarest is {rarest!r} with {tally[rarest]}"


def is_check(description):
    """Whether the script was started with --check."""
    parser = ArgumentParser(description=description, allow_abbrev=False)
    parser.add_argument("--check", action="store_true")
    return parser.parse_args().check


def settle(crate, stdin, lines, checks):
    """The input of a crate's program, and the lines that it must write."""
    settle_files(crate, {"stdin": stdin, "stdout": "".join(line + "\n" for line in lines).encode()}, checks)


def settle_files(crate, contents, checks):
    """The files of a crate beside its sources: these, and no others."""
    folder = CRATES / crate
    for path in sorted(folder.rglob("*")):
        name = path.relative_to(folder)
        if not path.is_dir() and name.parts[0] not in SOURCES and name.as_posix() not in contents:
            sys.exit(f"crates/{crate}/{name} must not be there")
    for name, content in contents.items():
        path = folder / name
        if not checks:
            path.parent.mkdir(parents=True, exist_ok=True)
            path.write_bytes(content)
        elif not path.is_file() or path.read_bytes() != content:
            sys.exit(f"crates/{crate}/{name} is out of date")
