"""Writes what the test program `reasons` reads and what it must answer, from the Python alone: from reasons by
violation, which are held against reasons by the equations.

Each case on its standard input is a rule's length and the number of kept scans, each as three bytes, highest first,
then the rule file, the kept scans and the scan. Each case has one line on its standard output. With --check nothing
is written, and the files are compared with what would be.
"""
import compare_reasons
import reason_cases
import table_cases
from compare import check_patterns
from expected import is_check, settle, three_bytes, told


def input_of(rule, kept, scan):
    return three_bytes(len(rule)) + three_bytes(len(kept)) + rule + kept + bytes([scan])


def main():
    checks = is_check(__doc__)
    rules, lists = compare_reasons.check(table_cases.files()[::3])
    answers = {case: compare_reasons.reason(*case) for case in reason_cases.cases()}
    compare_reasons.check_neighbours(answers)
    tally = compare_reasons.tally(answers)
    check_patterns(rule for rule, _, _ in answers)
    settle("reasons", b"".join(input_of(*case) for case in answers), answers.values(), checks)
    print(f"{rules} rules compared on {lists} lists of codes")
    print(f"{len(answers)} cases: {told(tally)}")


if __name__ == "__main__":
    main()
