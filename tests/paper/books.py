"""Good books, and the faults that make a good book a refused one."""

import struct
from typing import Callable, NamedTuple

import engine
from engine import (ATOMIC, COORDINATOR, MIXED, MOST_ACTIVITIES, MOST_SEATS, PARTICIPANT,
                    PLAIN, SPLIT)

ACTIVITY_SORTS = ((ATOMIC, 0), (ATOMIC, 1), (ATOMIC, 2), (MIXED, 0))
BAD_ACTIVITIES = ((0, 0), (0, 1), (3, 0), (255, 0), (ATOMIC, 3), (ATOMIC, 255),
                  (MIXED, 1), (MIXED, 2), (MIXED, 3))
EXAMPLE_BOOK = bytes.fromhex("0100 0200 0800 0A00 0100 00010205 00010205")


def book_of(activities, seats):
    header = struct.pack("<4H", len(activities), len(seats), engine.HEADER_BYTES,
                         engine.activity_at(len(activities)))
    return header + b"".join(map(bytes, activities)) + b"".join(map(bytes, seats))


def seat_sorts():
    """Every role, table and state that a seat can have."""
    return [(role, table, state)
            for role in (COORDINATOR, PARTICIPANT) for table in (PLAIN, SPLIT)
            for state in range(1, engine.LAST_STATE + 1)
            if engine.has_state(role, table, state)]


SEAT_SORTS = seat_sorts()


def draw_seat(dice, activities):
    """A seat that agrees with its activity, often one that can still do much."""
    while True:
        role, table, state = dice.pick(SEAT_SORTS)
        if dice.chance(50):
            state = dice.pick((1, 4, 5, 5))
        # A seat's one byte cannot name the activity past the largest number.
        named = dice.below(min(len(activities), MOST_ACTIVITIES))
        seat = (named, role, table, state)
        if engine.seat_fits(seat, activities):
            return seat


def draw_book(dice, activity_count, seat_count):
    activities = [dice.pick(ACTIVITY_SORTS) for _ in range(activity_count)]
    return book_of(activities, [draw_seat(dice, activities) for _ in range(seat_count)])


def small_book(dice):
    return draw_book(dice, dice.between(1, 5), dice.between(1, 10))


def opposed_book(dice, seat_count):
    """Neighbouring activities that go opposite ways."""
    activities = [(ATOMIC, 1), (ATOMIC, 2), (ATOMIC, 0), (MIXED, 0), (ATOMIC, 2), (ATOMIC, 1)]
    return book_of(activities, [draw_seat(dice, activities) for _ in range(seat_count)])


def card_book():
    """Every sort of seat alone in every sort of activity that it agrees with."""
    activities, seats = [], []
    for activity in ACTIVITY_SORTS:
        for role, table, state in SEAT_SORTS:
            if engine.seat_fits((0, role, table, state), [activity]):
                seats.append((len(activities), role, table, state))
                activities.append(activity)
    return book_of(activities, seats)


class Fault(NamedTuple):
    """A refusal and the damage that brings it about."""
    refusal: int
    damage: Callable[[bytes], bytes]


def put(at, *values):
    return lambda book: book[:at] + bytes(values) + book[at + len(values):]


def put_header(**fields):
    """Writes some of the header's four numbers."""
    order = ("a", "s", "activities", "seats")

    def damage(book):
        numbers = dict(zip(order, struct.unpack_from("<4H", book)))
        numbers.update(fields)
        header = struct.pack("<4H", *(numbers[name] % 65536 for name in order))
        return header + book[engine.HEADER_BYTES:]
    return damage


def cut(length):
    return lambda book: book[:length]


def grow(extra):
    return lambda book: book + bytes(extra)


def short_faults(_):
    return [Fault(1, cut(length)) for length in range(engine.HEADER_BYTES)]


def shape_faults(book):
    """Counts, offsets and lengths that are each wrong alone."""
    a, s = engine.counts(book)
    seats = engine.activity_at(a)
    headers = [dict(a=a + 1), dict(a=a - 1), dict(a=MOST_ACTIVITIES + 1), dict(a=65535),
               dict(s=s + 1), dict(s=s - 1), dict(s=MOST_SEATS + 1), dict(s=65535),
               dict(a=a + 1, seats=seats + 2), dict(a=a + 2, s=s - 1),
               dict(activities=7), dict(activities=9), dict(activities=0),
               dict(activities=0x0800), dict(activities=seats + 1),
               dict(seats=seats + 1), dict(seats=seats - 1), dict(seats=seats + 2),
               dict(seats=0), dict(seats=seats << 8), dict(activities=10, seats=seats + 2)]
    lengths = [cut(len(book) - 1), cut(len(book) - 4), cut(engine.HEADER_BYTES),
               grow(1), grow(2), grow(4)]
    return [Fault(2, put_header(**fields)) for fields in headers] + [
        Fault(2, damage) for damage in lengths]


def places(count):
    """First, middle and last of so many records."""
    return sorted({0, count // 2, count - 1}) if count else []


def activity_faults_at(_, index):
    return [Fault(3, put(engine.activity_at(index), *record)) for record in BAD_ACTIVITIES]


def seat_faults_at(book, index):
    a, _ = engine.counts(book)
    records = [(0, 0, 1, 1), (0, 3, 1, 1), (0, 255, 2, 5), (0, 1, 0, 1), (0, 2, 3, 1),
               (0, 1, 255, 1), (0, 1, 1, 0), (0, 2, 2, 0), (0, 1, 2, 16), (0, 2, 2, 255),
               (0, 1, 1, 13), (0, 1, 1, 14), (0, 2, 1, 15), (0, 2, 1, 3), (0, 2, 2, 3)]
    if a < MOST_ACTIVITIES:
        records += [(a, 1, 1, 1), (255, 2, 2, 1)]
    at = engine.seat_at(a, index)
    return [Fault(4, put(at, *record)) for record in records]


def coordinator_records(book):
    """Coordinator seats in the states that need a direction, in each atomic activity."""
    return [(number, COORDINATOR, table, state)
            for number, (kind, _) in enumerate(engine.activities_of(book)) if kind == ATOMIC
            for table in (PLAIN, SPLIT)
            for state in (engine.CLOSING, engine.COMPENSATING, engine.FAILING_COMPENSATING)]


def direction_faults_at(book, index):
    a, _ = engine.counts(book)
    records = engine.activities_of(book)
    return [Fault(5, put(engine.seat_at(a, index), *seat))
            for seat in coordinator_records(book) if not engine.seat_fits(seat, records)]


def near_misses_at(book, index):
    """The same states where nothing is wrong with them: other role, kind or direction."""
    a, _ = engine.counts(book)
    records = engine.activities_of(book)
    seats = [(number, role, table, state)
             for number in range(a) for role, table, state in SEAT_SORTS
             if engine.direction_needed(state)]
    return [Fault(0, put(engine.seat_at(a, index), *seat))
            for seat in seats if engine.seat_fits(seat, records)]


def record_faults(book, faults_at, count):
    return [fault for index in places(count) for fault in faults_at(book, index)]


def single_faults(book):
    """Every fault of the book by its refusal; 0 has the near misses."""
    a, s = engine.counts(book)
    return {0: record_faults(book, near_misses_at, s),
            1: short_faults(book),
            2: shape_faults(book),
            3: record_faults(book, activity_faults_at, a),
            4: record_faults(book, seat_faults_at, s),
            5: record_faults(book, direction_faults_at, s)}


def edge_faults(book, last):
    """The faults at the book's last records, or at its first ones."""
    a, s = engine.counts(book)
    activity, seat = (a - 1, s - 1) if last else (0, 0)
    return {2: shape_faults(book),
            3: activity_faults_at(book, activity),
            4: seat_faults_at(book, seat),
            5: direction_faults_at(book, seat)}
