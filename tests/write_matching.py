"""Writes what the test program `matching` reads and what it must answer, from the Python alone: from the definition of a strong
bisimulation, and from satisfaction.

Each case on its standard input is the lengths of two model files and of a list of pairs and the number of its rules, the three files,
and each rule with its length before it. All numbers have three bytes, highest first. Each case has one line on its standard output.
With --check nothing is written, and the files are compared with what would be.
"""
from collections import Counter
from random import Random

import compare_matching
import matching_cases
from compare import expect
from compare_matching import SORTS
from equations import LARGEST_TABLE
from expected import fresh_table, is_check, lacking, settle, three_bytes, told
from judging import judge
from matching import match
from matching_rules import rules_for

# Of each sort there have to be so many cases at least, and so many of each refusal.
LEAST = 20
LEAST_REFUSED = 15
REFUSALS = [f"{which} refused {number}" for which in ("first", "second") for number in (11, 12, 13, 14)]
REFUSALS += [f"pairs refused {number}" for number in (22, 23, 24)]

# After a yes both models meet a rule or both break it. After a no a rule can tell them apart.
JUDGED = ["both meet after a yes", "both break after a yes", "told apart after a no"]

# Every so many of the cases whose answer is no have rules.
EVERY = 4


def input_of(first, second, pairs, rules):
    numbers = [len(first), len(second), len(pairs), len(rules)]
    files = [first, second, pairs] + [three_bytes(len(rule)) + rule for rule in rules]
    return b"".join([three_bytes(number) for number in numbers] + files)


def judged_words(first, second, rules, answer, table, tally):
    """What is judged of both models under each of the rules. After a yes it is the same."""
    words = []
    for rule in rules:
        two = [judge(rule, model, table) for model in (first, second)]
        expect(set(two) <= {"meets", "breaks"}, "a refused rule", list(rule), two)
        expect(answer == "no" or two[0] == two[1], "both models", list(first), list(second), list(rule), two)
        tally[f"both {two[0][:-1]} after a {answer}" if two[0] == two[1] else f"told apart after a {answer}"] += 1
        words += two
    return words


def main():
    checks = is_check(__doc__)
    compare_matching.check_typed()
    small = compare_matching.check_greatest()
    random, table, tally = Random("rules of matching"), fresh_table(LARGEST_TABLE, 0), Counter()
    inputs, lines = [], []
    for number, (*case, rule) in enumerate(matching_cases.cases()):
        first, second, pairs = case
        answer = match(*case)
        compare_matching.check_exchanged(*case, answer)
        compare_matching.check_models(first, second)
        has_rules = answer == "yes" or answer == "no" and number % EVERY == 0
        rules = rules_for(random, first, second, rule) if has_rules else []
        lines.append(" ".join([answer, *judged_words(first, second, rules, answer, table, tally)]))
        inputs.append(input_of(*case, rules))
        tally.update(compare_matching.sorts_of(*case, answer))
    too_few = lacking(tally, SORTS + JUDGED, LEAST) + lacking(tally, REFUSALS, LEAST_REFUSED)
    expect(too_few == [], "too few", too_few)
    settle("matching", b"".join(inputs), lines, checks)
    print(f"small models compared: {compare_matching.SMALL}, of which {small} are bisimilar")
    print(f"{len(lines)} cases: {told(tally)}")


if __name__ == "__main__":
    main()
