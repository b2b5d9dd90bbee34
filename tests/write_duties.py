"""Writes what the test program `duties` reads and what it must answer, from the Python alone: who is on duty, and by violation
which scans are dropped; of tables that no rule has, by their entries.

Its standard input is a list of records, which the program's first lines describe. Each filling, each coming and going and each
run has one line on its standard output. With --check nothing is written, and the files are compared with what would be.
"""
import duty_cases
import duty_rules
from compare import check_patterns
from duty_sorts import SORTS
from expected import is_check, settle, told_of


def main():
    checks = is_check(__doc__)
    check_patterns(duty_rules.pool() + duty_rules.wide())
    script = duty_cases.whole_script()
    settle("duties", bytes(script.stdin), script.lines, checks)
    print(told_of(script.tally, SORTS))


if __name__ == "__main__":
    main()
