"""Writes what the test program `streams` reads and what it must answer, from the Python alone: from runs over the
tables of the Python equations, which are held against sifting by violation.

Its standard input is a list of records, which the program's first lines describe. Each filling and each call of a
run has one line on its standard output. With --check nothing is written, and the files are compared with what would
be.
"""
import compare_runs
import stream_cases
from compare import check_patterns
from expected import is_check, settle, told_of
from stream_sorts import SORTS


def main():
    checks = is_check(__doc__)
    compare_runs.check_typed()
    check_patterns(stream_cases.rule_files())
    script = stream_cases.whole_script()
    settle("streams", bytes(script.stdin), script.lines, checks)
    print(told_of(script.tally, SORTS))


if __name__ == "__main__":
    main()
