"""Holds the typed-in rules against the paper's own examples, cases and boundaries."""

import engine
from books import EXAMPLE_BOOK, book_of
from engine import COORDINATOR, PARTICIPANT, PLAIN, RECEIVED, SENT, SPLIT
from journals import EXAMPLE_JOURNAL
from lists import event

EXAMPLE_REPORT = b"""book 1 2
1 0 1 3 0 6 0 0
2 1 1 4 15 5 0 0
3 1 1 3 0 6 0 0
4 0 0 10 14 6 0 0
5 1 0 13 0 12 3 0
6 2 1 3 11 0 0 0
seat 0 6
seat 1 12
"""
# Counted by hand on the paper: role, table, pairs listed.
LISTED_COUNTS = ((COORDINATOR, PLAIN, 51), (COORDINATOR, SPLIT, 72),
                 (PARTICIPANT, PLAIN, 56), (PARTICIPANT, SPLIT, 77))
AREA = b"\xA5" * 40


def same(found, wanted):
    assert found == wanted, f"{found} is not {wanted}"


def got(role, table, state, name):
    return engine.answer(role, table, RECEIVED, engine.MESSAGES[name], state)


def sent(role, table, state, name):
    return engine.answer(role, table, SENT, engine.MESSAGES[name], state)


def test_example():
    same(engine.report(EXAMPLE_BOOK + EXAMPLE_JOURNAL), EXAMPLE_REPORT)


def test_lot_cases_of_seats():
    same(got(COORDINATOR, SPLIT, 3, "Completed"), (0, 5, 0, 0))
    same(got(COORDINATOR, SPLIT, 2, "Completed"), (14, 2, 0, 0))
    same(got(COORDINATOR, SPLIT, 14, "Exit"), (0, 14, 2, 6))
    same(got(COORDINATOR, SPLIT, 12, "Exit"), (0, 12, 1, 0))
    same(got(PARTICIPANT, SPLIT, 14, "Complete"), (0, 14, 2, 10))
    same(got(PARTICIPANT, PLAIN, 12, "Close"), (0, 12, 2, 13))
    same(got(PARTICIPANT, SPLIT, 12, "Close"), (0, 12, 1, 0))
    for table in (PLAIN, SPLIT):
        same(got(PARTICIPANT, table, 9, "Compensate"), (0, 9, 2, 10))


def test_lot_cases_of_books_and_lists():
    seat = (0, COORDINATOR, PLAIN, 1)
    same(engine.check_book(book_of([(1, 0)], [seat] * 4096)), 0)
    same(engine.check_book(book_of([(1, 0)], [seat] * 4097)), 2)
    same(engine.check_book(book_of([], [])), 0)
    same(engine.check_book(book_of([], [seat])), 4)
    for count, refusal in ((4096, 0), (4097, 6)):
        events = event(0, SENT, 1) * count
        same(engine.run(EXAMPLE_BOOK, events, bytes(len(events)))[0], refusal)


def test_lot_cases_of_lines():
    same(engine.read_journal(b"007 got Exit\n", AREA), (22, 1, 0, AREA))
    same(engine.read_journal(b"65536 got Exit\n", AREA), (22, 1, 0, AREA))
    same(engine.read_journal(b"65535 got Exit\n", AREA),
         (0, 0, 1, b"\xff\xff\x00\x08" + AREA[4:]))


def test_listed_counts():
    for role, table, count in LISTED_COUNTS:
        same(sum(pair[:2] == (role, table) for pair in engine.LISTED), count)


def test_answers_of_every_listed_pair():
    for (role, table, way, message, state), (_, after, action, reply) in engine.LISTED.items():
        assert engine.moves(role, way, message)
        same(bool(reply), action == engine.REPLY)
        if action in (engine.IGNORE, engine.REPLY):
            same((way, after), (RECEIVED, state))
        if reply:
            assert engine.moves(role, SENT, reply)
        if way == SENT:
            same(action == engine.FORGET, state < 12 <= after)
        else:
            again = engine.answer(role, table, way, message, after)
            same(again[:2], (0, after))


def test_answers_of_any_bytes():
    for role, table, way, message, state in (
            (0, 1, 0, 8, 1), (1, 0, 0, 8, 1), (1, 1, 2, 8, 1), (1, 1, 0, 0, 1), (1, 1, 0, 15, 1),
            (1, 1, 0, 8, 0), (1, 1, 0, 8, 13), (2, 2, 0, 1, 3), (1, 2, 0, 8, 16),
            (255, 255, 255, 255, 255)):
        same(engine.answer(role, table, way, message, state), (14, state, 0, 0))


def test_sends_of_both_tables():
    same(sent(COORDINATOR, PLAIN, 9, "Failed"), (0, 12, 3, 0))
    same(sent(COORDINATOR, SPLIT, 9, "Failed"), (0, 13, 3, 0))
    same(sent(COORDINATOR, SPLIT, 13, "Failed"), (0, 13, 0, 0))
    same(sent(COORDINATOR, SPLIT, 12, "Failed"), (14, 12, 0, 0))
    for name in ("Failed", "Exited", "NotCompleted"):
        same(sent(COORDINATOR, PLAIN, 12, name), (0, 12, 0, 0))
    same(sent(COORDINATOR, PLAIN, 4, "Cancel"), (0, 3, 0, 0))
    same(sent(PARTICIPANT, SPLIT, 7, "Compensated"), (0, 15, 3, 0))
    same(sent(PARTICIPANT, PLAIN, 7, "Fail"), (0, 9, 0, 0))


def test_states():
    same([n for n in range(256) if engine.has_state(1, 1, n)], list(range(1, 13)))
    same([n for n in range(256) if engine.has_state(1, 2, n)], list(range(1, 16)))
    same([n for n in range(256) if engine.has_state(2, 1, n)], [1, 2, *range(4, 13)])
    same([n for n in range(256) if engine.has_state(2, 2, n)], [1, 2, *range(4, 16)])


def test_book_refusals():
    seat = (0, COORDINATOR, PLAIN, 6)
    same(engine.check_book(b""), 1)
    same(engine.check_book(EXAMPLE_BOOK[:7]), 1)
    same(engine.check_book(EXAMPLE_BOOK[:8]), 2)
    same(engine.check_book(EXAMPLE_BOOK + b"\0"), 2)
    same(engine.check_book(book_of([(1, 0)] * 256, [])), 0)
    same(engine.check_book(book_of([(1, 0)] * 257, [])), 2)
    same(engine.check_book(book_of([(2, 1)], [])), 3)
    same(engine.check_book(book_of([(1, 3)], [(0, 0, 0, 0)])), 3)
    same(engine.check_book(book_of([(1, 0)], [seat])), 5)
    same(engine.check_book(book_of([(1, 0)], [seat, (1, 1, 1, 1)])), 4)
    same(engine.check_book(book_of([(1, 1)], [seat])), 0)
    same(engine.check_book(book_of([(2, 0)], [seat])), 0)
    same(engine.check_book(book_of([(1, 2)], [(0, PARTICIPANT, PLAIN, 6)])), 0)
    same(engine.check_book(book_of([(1, 1)], [(0, COORDINATOR, SPLIT, 9)])), 5)


def test_run_refusals():
    events = event(0, SENT, 3)
    same(engine.run(EXAMPLE_BOOK, events[:3], b""), (6, EXAMPLE_BOOK, b""))
    same(engine.run(EXAMPLE_BOOK, events, b"abc"), (7, EXAMPLE_BOOK, b"abc"))
    same(engine.run(EXAMPLE_BOOK, b"", b"abc"), (0, EXAMPLE_BOOK, b"abc"))
    same(engine.run(b"", events[:1], b""), (1, b"", b""))
    refusal, book, area = engine.run(EXAMPLE_BOOK, events, b"12345")
    same((refusal, area), (0, b"\0\6\0\0" + b"5"))
    same(book, book_of([(1, 1)], [(0, 1, 2, 6), (0, 1, 2, 5)]))


def answers(book, *events):
    area = engine.run(book, b"".join(events), bytes(4 * len(events)))[2]
    return [tuple(area[at:at + 4]) for at in range(0, len(area), 4)]


def test_event_refusals_in_order():
    same(answers(EXAMPLE_BOOK, event(2, 9, 99), event(0, 2, 3), event(0, 1, 0), event(0, 1, 15),
                 event(0, 0, 3), event(0, 1, 8), event(0, 1, 1)),
         [(11, 0, 0, 0), (12, 5, 0, 0), (12, 5, 0, 0), (12, 5, 0, 0),
          (13, 5, 0, 0), (13, 5, 0, 0), (14, 5, 0, 0)])


def test_direction():
    seats = [(0, COORDINATOR, SPLIT, 4), (0, COORDINATOR, SPLIT, 5), (0, COORDINATOR, PLAIN, 5)]
    close, compensate = (SENT, 3), (SENT, 4)
    same(answers(book_of([(1, 0)], seats), event(0, *close), event(1, *compensate),
                 event(2, *close), event(2, *compensate)),
         [(14, 4, 0, 0), (0, 7, 0, 0), (15, 5, 0, 0), (0, 7, 0, 0)])
    mixed = book_of([(2, 0)], seats)
    same(answers(mixed, event(1, *compensate), event(2, *close)), [(0, 7, 0, 0), (0, 6, 0, 0)])
    after = engine.run(mixed, event(1, *close), bytes(4))[1]
    same(engine.activities_of(after), [(2, 0)])


def read(text, room=40):
    return engine.read_journal(text, b"\xA5" * room)[:3]


def test_lines():
    same(read(b""), (0, 0, 0))
    same(read(b"65535 sent CannotComplete\n"), (0, 0, 1))
    same(read(b"65535 sent CannotComplete \n"), (21, 1, 0))
    same(read(b"65535 got CannotComplete \n"), (24, 1, 0))
    same(read(b"0 got Exit\n0 got Exit"), (21, 2, 0))
    for line in (b"\n", b"0\n", b" got Exit\n", b"+1 got Exit\n", b"00 got Exit\n"):
        same(read(line), (22, 1, 0))
    for line in (b"0 \n", b"0 got\n", b"0  got Exit\n", b"0 Got Exit\n"):
        same(read(line), (23, 1, 0))
    for line in (b"0 got \n", b"0 got Exit \n", b"0 got Cancelled\n", b"0 got exit\n"):
        same(read(line), (24, 1, 0))
    for name, message in engine.MESSAGES.items():
        line = b"258 sent " + name.encode() + b"\n"
        same(engine.read_journal(line, AREA)[3], bytes([2, 1, 1, message]) + AREA[4:])


def test_room():
    line = b"0 got Exit\n"
    for room, wanted in ((12, (0, 0, 3)), (11, (25, 3, 0)), (8, (25, 3, 0)), (3, (25, 1, 0))):
        same(read(line * 3, room), wanted)
    same(read(line + b"0 got exit\n", 4), (24, 2, 0))
    same(read(line * 4096, 17000), (0, 0, 4096))
    same(read(line * 4097, 17000), (25, 4097, 0))
    same(read(b"0 sent Canceled\n" * 4096, 16384), (0, 0, 4096))
    same(read(b"x" * 65536), (21, 1, 0))
    same(read(b"x" * 65537), (26, 0, 0))


def test_reports():
    same(engine.report(b""), b"refused 1\n")
    same(engine.report(EXAMPLE_BOOK[:7]), b"refused 1\n")
    same(engine.report(EXAMPLE_BOOK[:-1]), b"refused 2\n")
    same(engine.report(EXAMPLE_BOOK), b"book 1 2\nseat 0 5\nseat 1 5\n")
    same(engine.report(book_of([], [])), b"book 0 0\n")
    same(engine.report(book_of([], []) + b"0 got Exit\n"), b"book 0 0\n1 0 0 8 11 0 0 0\n")
    same(engine.report(EXAMPLE_BOOK + b"0 got Exit\n007 got Exit\n"), b"refused 22 line 2\n")
    same(engine.report(EXAMPLE_BOOK + b"x" * 65537), b"refused 26 line 0\n")
    same(engine.report(book_of([(3, 0)], []) + b"x"), b"refused 3\n")


def main():
    tests = [test for name, test in globals().items() if name.startswith("test_")]
    for test in tests:
        test()
    print(f"{len(tests)} tests held")


if __name__ == "__main__":
    main()
