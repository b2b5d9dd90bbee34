"""Writes what the test program `programs` reads and must write, from what is typed in known_programs.py and held
against the Python.

With --check nothing is written, and the files are compared with what would be.
"""
import known_programs
from compare import expect
from equations import PROGRAM_TABLE, PROGRAMS, entries_of, listing, rows, said
from expected import fresh_table, is_check, settle_files
from judging import judge
from models import file_of
from running import run
from shapes import TRUTH
from write_sift import BLOCK, sifted


def check_rule(rule, text):
    """It has 255 bytes, and its last node decides what is printed."""
    expect(len(rule) == 255 and listing(rule, PROGRAMS) == text, "the longest rule", listing(rule, PROGRAMS))
    expect(listing(rule[:-1] + TRUTH, PROGRAMS) != text, "its last node")


def end_of(rule, scans):
    """The equation in which a run over the scans ends."""
    table = rows(rule)
    return run(entries_of(table), len(table), 0, scans, bytearray(len(scans)), bytearray(len(scans))).state


def check_scans(rule):
    """The kept scans are those typed, and all of them under tt in place of the last node. The first block ends in
    equation 63, the whole stream in 2."""
    scans = known_programs.SCANS
    expect(sifted(rule, scans)[0] == known_programs.KEPT, "kept scans")
    expect(sifted(rule[:-1] + TRUTH, scans)[0] == scans, "kept scans under tt")
    expect([end_of(rule, scans[:BLOCK]), end_of(rule, scans)] == [63, 2], "ends of the stream")


def check_model(rule):
    """The model breaks the rule by its last step alone, and by the last node of the rule alone."""
    model = file_of(64, known_programs.STEPS)
    shorter = file_of(64, known_programs.STEPS[:-1])
    expect(len(known_programs.STEPS) == 512 and len(model) == 2050, "the largest model")
    cases = [(rule, model), (rule, shorter), (rule[:-1] + TRUTH, model)]
    answers = [judge(*case, fresh_table(PROGRAM_TABLE, 0), PROGRAMS) for case in cases]
    expect(answers == ["breaks", "meets", "meets"], "judgments", answers)
    return model


def check_over(rule):
    """The rule has one equation more than the programs take, and the library takes it."""
    expect(said(rows(rule)) == "equations 129", "the rule of too many equations", said(rows(rule)))
    expect(listing(rule, PROGRAMS) == known_programs.REFUSED, "its listing", listing(rule, PROGRAMS))
    judged = judge(rule, b"", fresh_table(PROGRAM_TABLE, 0), PROGRAMS)
    expect(judged + "\n" == known_programs.REFUSED, "its judgment", judged)


def main():
    checks = is_check(__doc__)
    rule, text = known_programs.listings()[0]
    check_rule(rule, text)
    check_scans(rule)
    model, over = check_model(rule), known_programs.over()
    check_over(over)
    stdout = (known_programs.UNWRITTEN + text).encode() + known_programs.KEPT
    stdout += ("breaks\n" + known_programs.UNREAD + 3 * known_programs.REFUSED).encode()
    files = {"data/rule.bin": rule, "data/scans.bin": known_programs.SCANS, "data/model.bin": model, "data/over.bin": over, "stdout": stdout}
    settle_files("programs", files, checks)
    print(f"{len(rule)} bytes of a rule, {len(model)} of a model")


if __name__ == "__main__":
    main()
