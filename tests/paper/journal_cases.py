"""Cases of a journal read: a text and an event area's length."""

from collections import Counter
from typing import NamedTuple

import engine
import journals
from dice import Dice
from vectors import Vectors, blank_area, numbers, require, require_counts, shown

SEED = 2
MOST_TEXT_BYTES, MOST_AREA_BYTES = 70000, 17000
FULL_AREA = engine.EVENT_BYTES * engine.MOST_EVENTS
JOURNAL_BYTES = b"0123456789 \n gotsent ExitClosedFailCancelompnsNd"

LATE_BAD_LINES = ((21, b"65535 sent CannotComplete \n"), (21, b"0 got Exit"),
                  (22, b"007 got Exit\n"), (22, b"\n"), (23, b"0 go Exit\n"),
                  (24, b"0 got Cancelled\n"))


class Case(NamedTuple):
    text: bytes
    area: int


def room(text):
    """An area with room for an event of every line, and a little more."""
    return engine.EVENT_BYTES * (text.count(b"\n") + 1)


def roomy(text):
    return Case(text, room(text))


def expect(case, refusal, line):
    """The case, held to be what it was made for."""
    found = engine.read_journal(case.text, blank_area(case.area))
    require(found[:2] == (refusal, line), f"a text {case.text[:60]!r} reads {found[:2]}")
    return case


def good_cases(dice):
    cases = [expect(roomy(line), 0, 0) for line in journals.every_good_line()]
    for _ in range(150):
        count = dice.between(2, 14)
        text = journals.draw_lines(dice, count)
        cases.append(expect(Case(text, 4 * count + dice.pick((0, 1, 3, 4, 40))), 0, 0))
    cases += [expect(Case(b"", area), 0, 0) for area in (0, 1, 3, 4, 5, 100)]
    return cases


def alone_and_among(dice):
    """Each bad line alone, and once among good lines: first, in the middle or last."""
    cases = []
    for number, bad in enumerate(journals.bad_lines(dice)):
        before, after = ((0, 2), (3, 2), (3, 0))[number % 3]
        text = journals.draw_lines(dice, before) + bad.text + journals.draw_lines(dice, after)
        cases.append(expect(roomy(bad.text), bad.refusal, 1))
        cases.append(expect(roomy(text), bad.refusal, before + 1))
    return cases


def unended_cases(dice):
    """A last line without its newline, alone and after good lines."""
    cases = []
    for last in journals.UNENDED_LINES:
        for before in (0, 1, 6):
            text = journals.draw_lines(dice, before) + last
            cases.append(expect(roomy(text), 21, before + 1))
    return cases


def two_bad_cases(dice):
    """Of two bad lines the earlier one is told, whatever its number."""
    cases, bad_lines = [], journals.bad_lines(dice)
    for _ in range(60):
        first, second = dice.pick(bad_lines), dice.pick(bad_lines)
        text = (journals.draw_lines(dice, 2) + first.text + journals.draw_lines(dice, 1)
                + second.text)
        cases.append(expect(roomy(text), first.refusal, 3))
    return cases


def area_cases(dice):
    """Areas short by a byte or a record, exact and long."""
    cases = []
    for count in (1, 2, 3, 5, 8, 13, 21):
        text, size = journals.draw_lines(dice, count), 4 * count
        cases += [expect(Case(text, area), 25, count) for area in (size - 1, size - 3, size - 4)]
        cases += [expect(Case(text, area), 25, 1) for area in (0, 1, 2, 3)]
        cases += [expect(Case(text, area), 0, 0) for area in (
            size, size + 1, size + 3, size + 4, size + 99)]
        if count > 1:
            cases += [expect(Case(text, area), 25, count - 1) for area in (size - 5, size - 8)]
    return cases


def full_area_cases(dice):
    """A bad line where there is no room left keeps its own number."""
    cases, bad_lines = [], journals.bad_lines(dice)
    for count in range(12):
        text, size = journals.draw_lines(dice, count), 4 * count
        for _ in range(3):
            bad = dice.pick(bad_lines)
            cases.append(expect(Case(text + bad.text, size), bad.refusal, count + 1))
        cases.append(expect(Case(text + b"0 got Exit", size + 3), 21, count + 1))
        cases.append(expect(Case(text + b"0 got Exit\n0 x\n", size), 25, count + 1))
    return cases


def late_bad_cases(dice):
    """A bad line last after many good ones."""
    return [expect(roomy(journals.draw_lines(dice, 255) + last), refusal, 256)
            for refusal, last in LATE_BAD_LINES]


def damaged_cases(dice):
    """Good texts with one slip, good or bad as it falls out."""
    return [roomy(journals.damaged_text(dice, journals.draw_lines(dice, dice.between(1, 5))))
            for _ in range(350)]


def noise_cases(dice):
    cases = [roomy(dice.bytes(dice.between(1, 60))) for _ in range(60)]
    for _ in range(90):
        length = dice.between(1, 60)
        cases.append(roomy(bytes(dice.pick(JOURNAL_BYTES) for _ in range(length))))
    cases += [roomy(bytes([byte]) + b" got Exit\n") for byte in range(256)]
    return cases


def long_cases():
    """The longest text, the most events, and one more of each."""
    longest, most = journals.longest_text(), engine.MOST_EVENTS
    lines, line = journals.SHORT_LINE * most, journals.SHORT_LINE
    unended = longest[:-1] + b"x"
    short_then_bad = lines + b"0 got exit\n"
    return [expect(Case(longest, FULL_AREA), 0, 0),
            expect(Case(longest, FULL_AREA - 1), 25, most),
            expect(Case(unended, FULL_AREA), 21, most),
            expect(Case(longest + b"\n", FULL_AREA), 26, 0),
            expect(Case(longest + b"0", 0), 26, 0),
            expect(Case(b"\xff" * (engine.LONGEST_TEXT + 1), 64), 26, 0),
            expect(Case(b"\n" * MOST_TEXT_BYTES, MOST_AREA_BYTES), 26, 0),
            expect(Case(b"\n" * engine.LONGEST_TEXT, 64), 22, 1),
            expect(Case(lines, FULL_AREA), 0, 0),
            expect(Case(lines, MOST_AREA_BYTES), 0, 0),
            expect(Case(lines + line, MOST_AREA_BYTES), 25, most + 1),
            expect(Case(lines + line, FULL_AREA), 25, most + 1),
            expect(Case(short_then_bad, MOST_AREA_BYTES), 24, most + 1)]


def all_cases():
    dice = Dice(SEED)
    return (good_cases(dice) + alone_and_among(dice) + unended_cases(dice) + two_bad_cases(dice)
            + area_cases(dice) + full_area_cases(dice) + late_bad_cases(dice)
            + damaged_cases(dice) + noise_cases(dice) + long_cases())


def make():
    cases, tally = all_cases(), Counter()
    stdin, stdout = bytearray(), []
    for number, case in enumerate(cases, 1):
        require(len(case.text) <= MOST_TEXT_BYTES, "a text too long")
        require(case.area <= MOST_AREA_BYTES, "an event area too long")
        refusal, line, count, area = engine.read_journal(case.text, blank_area(case.area))
        stdin += numbers(len(case.text), case.area) + case.text
        stdout += [f"{number} {refusal} {line} {count}", f"area {shown(area)}"]
        tally[f"read {refusal}"] += 1
    require_counts(tally, {"read 0": 200, "read 26": 3})
    require_counts(tally, {f"read {one}": 40 for one in range(21, 26)})
    require(len(cases) >= 1700 and len(stdin) < 1500000, "the number or size of journal cases")
    return Vectors(bytes(stdin), "".join(line + "\n" for line in stdout).encode(), tally)
