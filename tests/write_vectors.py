"""Writes what the test program `vectors` reads and what it must answer, from the Python reader alone.

Each case on its standard input is a length of three bytes, highest first, and then that many bytes of a rule
file. Each case has one line on its standard output. With --check nothing is written, and the two files are
compared with what would be.
"""
import sys

import cases
import known
from expected import is_check, settle, three_bytes
from rules import Refusal, numbered, read_rule


def line_of(data):
    answer = read_rule(data)
    if isinstance(answer, Refusal):
        return str(answer)
    words = ["accepted"]
    for p in answer.patterns:
        words.append(f"p {p.mask} {p.first} {p.last} {p.extent()} {sum(p.codes())}")
    for kind, argument in numbered(answer.formula):
        words.append(f"n {kind} {argument}")
    return " ".join(words)


def check_typed_answers():
    for data, typed in known.answers():
        if line_of(data) != typed:
            sys.exit(f"{list(data)}: the paper says {typed}, the Python reader {line_of(data)}")


def main():
    checks = is_check(__doc__)
    check_typed_answers()
    files = cases.files()
    lines = [line_of(data) for data in files]
    settle("vectors", b"".join(three_bytes(len(data)) + data for data in files), lines, checks)
    accepted = sum(line.startswith("accepted") for line in lines)
    print(f"{len(files)} cases, {accepted} accepted")


if __name__ == "__main__":
    main()
