"""Cases of a run: a book, an event list and an answer area's length."""

from collections import Counter
from typing import NamedTuple

import books
import engine
import lists
from dice import Dice
from engine import (ATOMIC, COORDINATOR, MIXED, MOST_ACTIVITIES, MOST_EVENTS, MOST_SEATS,
                    PARTICIPANT, PLAIN, SPLIT)
from lists import event
from vectors import Vectors, blank_area, numbers, require, require_counts, shown

SEED = 1
MOST_BOOK_BYTES, MOST_LIST_BYTES, MOST_AREA_BYTES = 20000, 16400, 16400
WALKS, PAIRS = 900, 150
GOT, SENT = engine.RECEIVED, engine.SENT
CLOSE, COMPENSATE, FAILED, COMPLETED, FAIL, CLOSED, COMPENSATED = (
    engine.MESSAGES[name] for name in (
        "Close", "Compensate", "Failed", "Completed", "Fail", "Closed", "Compensated"))


class Case(NamedTuple):
    book: bytes
    events: bytes
    area: int


def exact(book, events):
    return Case(book, events, len(events))


def card_cases():
    """Each way and message, and some that are none, at every sort of seat."""
    book = books.card_book()
    _, s = engine.counts(book)
    pairs = lists.EVERY_PAIR + [(GOT, 0), (SENT, 15), (2, CLOSE), (255, 255)]
    return [exact(book, b"".join(event(seat, *pair) for seat in range(s))) for pair in pairs]


def base_books(dice):
    """Good books to damage, with an atomic activity and two seats at least."""
    drawn = [books.book_of([(ATOMIC, 0), (MIXED, 0)], [(0, 1, 1, 5), (1, 2, 2, 12)]),
             books.EXAMPLE_BOOK,
             books.opposed_book(dice, 5)]
    drawn += [books.opposed_book(dice, dice.between(2, 12)) for _ in range(9)]
    return drawn


def damaged(book, *faults):
    """The book with all faults; the first one named must be the one that is told."""
    for fault in reversed(faults):
        book = fault.damage(book)
    require(engine.check_book(book) == faults[0].refusal, f"a fault {faults[0].refusal}")
    return book


def fault_cases(dice):
    """Every fault of some books, and of others a few of each refusal."""
    cases = []
    for number, book in enumerate(base_books(dice)):
        for refusal, faults in books.single_faults(book).items():
            if number >= 3 or refusal == 0:
                faults = [dice.pick(faults) for _ in range(8)]
            for fault in faults:
                cases.append(exact(damaged(book, fault), lists.walk(dice, book, 3)))
    return cases


def two_fault_cases(dice):
    """The lower refusal is told though the other fault stands earlier in the book."""
    cases = []
    for book in base_books(dice):
        late, early = books.edge_faults(book, True), books.edge_faults(book, False)
        orders = [(told, hidden) for told in late for hidden in early if told < hidden]
        for told, hidden in orders * 4:
            pair = dice.pick(late[told]), dice.pick(early[hidden])
            cases.append(exact(damaged(book, *pair), lists.walk(dice, book, 2)))
    return cases


def layered_cases(dice):
    """A book's refusal before the list's, and the list's before the area's."""
    cases = []
    for _ in range(10):
        book = books.opposed_book(dice, 4)
        events = lists.walk(dice, book, 4)
        for faults in list(books.single_faults(book).values())[1:]:
            bad = damaged(book, dice.pick(faults))
            cases += [Case(bad, events[:-1], 16), Case(bad, events, 15),
                      Case(bad, events[:-3], 0), Case(bad, b"", 0)]
        cases += [Case(book, events[:-1], 0), Case(book, events[:-1], 14),
                  Case(book, events + b"\0", 16), Case(book, events[:2], 3)]
    return cases


def list_cases(dice):
    """List lengths that are no whole number of events, and areas of every fit."""
    cases = []
    for _ in range(25):
        book = books.small_book(dice)
        events = lists.walk(dice, book, dice.between(1, 9))
        size = len(events)
        cases += [Case(book, events[:size - short], size) for short in (1, 2, 3)]
        cases += [Case(book, events, area) for area in (
            0, size - 4, size - 1, size, size + 1, size + 3, size + 4, size + 97)]
        cases += [Case(book, b"", area) for area in (0, 1, 4, 100)]
    return cases


def tiny_book_cases():
    """Books of no more than a header or of a record or two."""
    empty, one_event = books.book_of([], []), event(0, SENT, CLOSE)
    lone_seat = books.book_of([], [(0, COORDINATOR, PLAIN, 1)])
    lone_activities = [books.book_of([sort], []) for sort in books.ACTIVITY_SORTS]
    one_each = [books.book_of([sort], [(0, *seat)])
                for sort in books.ACTIVITY_SORTS for seat in books.SEAT_SORTS]
    pieces = [empty[:length] for length in range(len(empty))]
    tiny = [empty, lone_seat, b"\0" * 7, b"\0" * 8, b"\xff" * 8, empty + b"\0"]
    tiny += lone_activities + pieces
    return [exact(book, events) for book in tiny for events in (b"", one_event)] + [
        exact(book, one_event) for book in one_each]


def scenario_lists():
    """Orders of directing that are easily judged wrongly; seats 0 to 3 are coordinators."""
    invalid_first = [(3, SENT, CLOSE), (0, SENT, COMPENSATE), (1, SENT, CLOSE)]
    clash_then_agree = [(0, SENT, CLOSE), (1, SENT, COMPENSATE), (1, SENT, CLOSE),
                        (2, SENT, COMPENSATE), (0, SENT, CLOSE), (0, SENT, COMPENSATE)]
    compensate_first = [(0, SENT, COMPENSATE), (1, SENT, CLOSE), (0, GOT, FAIL), (0, SENT, CLOSE),
                        (1, SENT, COMPENSATE), (1, GOT, COMPENSATED), (0, SENT, FAILED),
                        (2, SENT, CLOSE)]
    late = [(3, SENT, COMPENSATE), (3, GOT, COMPLETED), (3, SENT, CLOSE), (3, SENT, CLOSE),
            (0, SENT, COMPENSATE), (0, GOT, CLOSE), (0, SENT, CLOSE)]
    replies = [(0, SENT, CLOSE), (0, GOT, COMPLETED), (0, GOT, CLOSED), (0, GOT, COMPLETED),
               (0, SENT, CLOSE), (1, SENT, COMPENSATE)]
    participants = [(4, GOT, CLOSE), (5, GOT, COMPENSATE), (4, SENT, CLOSED), (5, SENT, FAIL),
                    (0, SENT, COMPENSATE), (4, SENT, CLOSE), (5, GOT, COMPENSATE)]
    return [b"".join(event(*one) for one in scenario) for scenario in (
        invalid_first, clash_then_agree, compensate_first, late, replies, participants)]


def scenario_cases():
    cases = []
    for sort in books.ACTIVITY_SORTS:
        for table in (PLAIN, SPLIT):
            seats = [(1, COORDINATOR, table, state) for state in (5, 5, 5, 4)]
            seats += [(1, PARTICIPANT, table, 5)] * 2
            book = books.book_of([(ATOMIC, 2), sort, (ATOMIC, 1)], seats)
            cases += [exact(book, events) for events in scenario_lists()]
    return cases


def walk_cases(dice):
    cases = []
    for number in range(WALKS):
        book = books.small_book(dice) if number % 3 else books.opposed_book(
            dice, dice.between(3, 14))
        events = lists.walk(dice, book, dice.between(0, 60 if number % 10 == 0 else 25))
        cases.append(Case(book, events, len(events) + dice.pick((0, 0, 0, 1, 5))))
    return cases


def require_same_by_group(book, first, second):
    """Both interleavings leave one book and give each group one sequence of answers."""
    ends = [engine.run(book, events, blank_area(len(events))) for events in (first, second)]
    require(ends[0][:2] == ends[1][:2], "an interleaving leaves another book")
    answers = [lists.grouped(book, events, lists.split_list(end[2]))
               for events, end in zip((first, second), ends)]
    require(answers[0] == answers[1], "an interleaving answers a group otherwise")


def interleaving_cases(dice):
    """Pairs of neighbouring cases, one list and the same groups interleaved otherwise."""
    cases = []
    while len(cases) < 2 * PAIRS:
        book = books.opposed_book(dice, dice.between(4, 14))
        events = lists.walk(dice, book, dice.between(6, 40))
        other = lists.interleaved_otherwise(dice, book, events)
        if other:
            require_same_by_group(book, events, other)
            cases += [exact(book, events), exact(book, other)]
    return cases


def many_events(dice, book, count):
    """A long list cheaply: one walk again and again."""
    some_events = lists.walk(dice, book, 64)
    return (some_events * (count // 64 + 1))[:engine.EVENT_BYTES * count]


def once_each(dice, book):
    """A list with one event for each seat, mostly legal."""
    return b"".join(event(number, *lists.draw_pair(dice, role, table, state))
                    for number, (_, role, table, state) in enumerate(engine.seats_of(book)))


def boundary_cases(dice):
    """The paper's largest numbers and one more of each."""
    few = books.opposed_book(dice, 9)
    crowd = [books.draw_book(dice, *sizes) for sizes in (
        (1, MOST_SEATS), (MOST_ACTIVITIES, MOST_SEATS), (0, 0), (MOST_ACTIVITIES, 300),
        (1, MOST_SEATS + 1), (MOST_ACTIVITIES, MOST_SEATS + 1), (MOST_ACTIVITIES + 1, 300),
        (MOST_ACTIVITIES + 1, 1), (MOST_ACTIVITIES + 1, 0))]
    events = b"".join(event(seat, SENT, CLOSE) for seat in (
        0, 299, MOST_SEATS - 2, MOST_SEATS - 1, MOST_SEATS, 65535))
    cases = [exact(book, events) for book in crowd]
    cases += [exact(damaged(crowd[1], dice.pick(faults)), events)
              for faults in (books.edge_faults(crowd[1], True)[n] for n in (3, 4, 5))]
    full, over = (many_events(dice, few, count) for count in (MOST_EVENTS, MOST_EVENTS + 1))
    cases += [exact(few, full), Case(few, full, MOST_AREA_BYTES), Case(few, full, len(full) - 1),
              exact(few, over), Case(few, over, 0), Case(few, full + b"\0", MOST_AREA_BYTES),
              Case(few, over + events[:12], MOST_AREA_BYTES), exact(crowd[1], full)]
    cases += [exact(book, once_each(dice, book)) for book in crowd[:2]]
    return cases


def all_cases():
    dice = Dice(SEED)
    return (card_cases() + fault_cases(dice) + two_fault_cases(dice) + layered_cases(dice)
            + list_cases(dice) + tiny_book_cases() + scenario_cases() + walk_cases(dice)
            + interleaving_cases(dice) + boundary_cases(dice))


def require_limits(case):
    require(len(case.book) <= MOST_BOOK_BYTES, "a book too long")
    require(len(case.events) <= MOST_LIST_BYTES, "a list too long")
    require(case.area <= MOST_AREA_BYTES, "an answer area too long")


def legal_kinds(case):
    """The listed pairs that a good run meets, told by role, table, way, message and state."""
    book, kinds = bytearray(case.book), set()
    a, s = engine.counts(book)
    for one in lists.split_list(case.events):
        seat, way, message = lists.fields(one)
        at = engine.seat_at(a, seat)
        _, role, table, state = book[at:at + engine.SEAT_BYTES] if seat < s else bytes(4)
        if engine.play_event(book, one)[0] == 0:
            kinds.add((role, table, way, message, state))
    return kinds


def answer_refusals(case, area):
    return [area[at] for at in range(0, len(case.events), engine.ANSWER_BYTES)]


def make():
    cases, tally, kinds = all_cases(), Counter(), set()
    stdin, stdout = bytearray(), []
    for number, case in enumerate(cases, 1):
        require_limits(case)
        refusal, book, area = engine.run(case.book, case.events, blank_area(case.area))
        stdin += numbers(len(case.book), len(case.events), case.area) + case.book + case.events
        stdout += [f"{number} {refusal}", f"book {shown(book)}", f"answers {shown(area)}"]
        tally[f"run {refusal}"] += 1
        if refusal == 0:
            found = answer_refusals(case, area)
            tally.update(f"event {one}" for one in found)
            tally.update(f"run with event {one}" for one in set(found))
            kinds |= legal_kinds(case)
    require(kinds == set(engine.LISTED), "a listed pair is never met")
    require_counts(tally, {f"run {one}": 40 for one in range(1, 8)})
    require_counts(tally, {f"run with event {one}": 40 for one in (0, 11, 12, 13, 14, 15)})
    require(len(cases) >= 1700 and len(stdin) < 1500000, "the number or size of run cases")
    return Vectors(bytes(stdin), "".join(line + "\n" for line in stdout).encode(), tally)
