"""Plays the days that were typed, and holds what was typed against the desk, the equations and the joined rules."""
import known_duties
from compare import expect
from compare_runs import check_conserved
from duty import OnDuty, Spell
from equations import rows, said
from joining import joined
from known_duties import END
from rules import Refusal
from expected import MOST_ENTRIES

TABLES = known_duties.tables()


def spell_at(base, count, kept_scans=b""):
    """A spell of the rule whose table begins there, if one does."""
    return next((Spell(data, kept=kept_scans) for data, *where in TABLES.values() if where == [base, count]), None)


def come_on(script, number, *where):
    """A rule comes on whose table has a name, or a base and a count, with so many entries lent."""
    base, count, lent = (*TABLES[where[0]][1:], END) if where[0] in TABLES else map(int, where)
    return script.come_on(int(number), lent, base, count, spell_at(base, count))


def hand_in(script, count, *fields):
    """A state, given by its numbers. A rule that is on duty, in an equation of its own, has a spell that led there."""
    places = []
    for at in range(0, len(fields), 4):
        number, base, size, equation = map(int, fields[at : at + 4])
        spell = spell_at(base, size, known_duties.kept_before(base, equation))
        is_own = at < 4 * int(count) and equation < size
        expect(not is_own or spell.equation() == equation, "a typed equation", *fields)
        places.append(OnDuty(number, base, size, equation, spell))
    script.hand_in(int(count), places)


def run(script, *words):
    """A run. It is answered by the verdicts, or by the refusal."""
    end = words.index("in") if "in" in words else len(words)
    scans = bytes(map(int, words[:end]))
    sizes = map(int, words[end + 1 :]) if end < len(words) else [len(scans)] * 2
    ran, output, verdicts = script.run(scans, END, *sizes)
    if ran.refusal is None:
        check_conserved(scans, ran, output, verdicts)
    return ran.refusal, " ".join(map(str, verdicts))


def answer_to(script, kind, *words):
    """The answer to a step, as it is typed."""
    verdicts = "fit"
    if kind == "on":
        refusal = come_on(script, *words)
    elif kind == "off":
        refusal = script.go_off(int(words[0]))
    elif kind == "run":
        refusal, verdicts = run(script, *words)
    else:
        return hand_in(script, *words)
    return verdicts if refusal is None else str(refusal).removesuffix(" at 0")


def play(script):
    """The typed days, with tables that are filled once."""
    for data, base, count in TABLES.values():
        expect(len(script.fill(base, data)) == count, "a typed count", list(data))
    for steps in known_duties.days():
        script.new_day()
        for words, answer, state in steps:
            given = answer_to(script, *words)
            expect(given == answer, "a typed answer", words, given, answer)
            expect(str(script.desk) == state, "a typed state", words, str(script.desk), state)
            script.tally["typed answers"] += answer is not None
    for files, one, answer in known_duties.joins():
        expect(not any(isinstance(rows(data), Refusal) for data in files), "a typed rule, alone", answer)
        expect(joined(files) == one, "a typed join", list(joined(files)), list(one))
        expect(said(script.fill(MOST_ENTRIES // 2, one)) == answer, "a typed join", answer)
