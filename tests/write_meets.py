"""Writes the files that the program `meets` reads and what it must print, and the same for the crates that run it on
other files, from what is typed here and held against judging.

With --check nothing is written, and the files are compared with what would be.
"""
from compare import expect
from equations import PROGRAM_TABLE, PROGRAMS
from expected import fresh_table, is_check, settle_files
from judging import judge
from known import POOL, bytes_of
from known_models import MEETING, PAPER
from known_programs import LONGEST
from models import MOST_STEPS, file_of

# More steps than there may be, and more bytes than the program reads. The first byte that is too much settles it.
REFUSED = file_of(2, [(0, 37, 1), (1, 128, 0)] * (MOST_STEPS + 50))


def programs():
    """Each crate with its rule and its model, if it has them, and the line that it prints."""
    paper = bytes_of(POOL)
    return [
        ("meets", paper, bytes_of(PAPER), "breaks"),
        ("meets_met", paper, bytes_of(MEETING), "meets"),
        ("meets_missing", paper, None, "refused 11 at 0"),
        ("meets_refused", bytes_of(LONGEST), REFUSED, "refused 14 at 2050"),
        ("meets_bare", None, None, "refused 1 at 0"),
    ]


def main():
    checks = is_check(__doc__)
    for crate, rule, model, line in programs():
        answer = judge(rule or b"", model or b"", fresh_table(PROGRAM_TABLE, 0), PROGRAMS)
        expect(answer == line, crate, answer)
        files = {"data/rule.bin": rule, "data/model.bin": model, "stdin": b"", "stdout": f"{line}\n".encode()}
        settle_files(crate, {name: content for name, content in files.items() if content is not None}, checks)
    print(f"{len(programs())} programs")


if __name__ == "__main__":
    main()
