"""Event lists: walks over a book, scenarios and lists interleaved otherwise."""

import struct

import engine

STRAY_SEATS = (0, 1, 2, 250, 4000, 65535)
BAD_WAYS = (2, 3, 128, 255)
BAD_MESSAGES = (0, 15, 16, 128, 255)
EVERY_PAIR = [(way, message) for way in (engine.RECEIVED, engine.SENT)
              for message in range(1, engine.LAST_MESSAGE + 1)]


def event(seat, way, message):
    return struct.pack("<HBB", seat, way, message)


def fields(one):
    """Seat, way and message of an event."""
    return struct.unpack("<HBB", one)


def split_list(events):
    return [events[at:at + engine.EVENT_BYTES]
            for at in range(0, len(events), engine.EVENT_BYTES)]


def stray_event(dice, seat_count):
    """An event that names no seat; its other fields may be wrong too."""
    seat = min(seat_count + dice.pick(STRAY_SEATS), engine.LAST_SEAT_NUMBER)
    way, message = dice.pick(EVERY_PAIR)
    if dice.chance(30):
        way = dice.pick(BAD_WAYS)
    return event(seat, way, message)


def wordless_pair(dice):
    """A way or a message that there is none of, or both."""
    way, message = dice.pick(EVERY_PAIR)
    if dice.chance(50):
        way = dice.pick(BAD_WAYS)
        return way, dice.pick((message, dice.pick(BAD_MESSAGES)))
    return way, dice.pick(BAD_MESSAGES)


def legal_pairs(role, table, state):
    return [pair for pair in EVERY_PAIR if engine.answer(role, table, *pair, state)[0] == 0]


def draw_legal_pair(dice, role, table, state):
    """A legal way and message, more often one that moves so that walks get deep."""
    pairs = legal_pairs(role, table, state)
    moving = [pair for pair in pairs if engine.answer(role, table, *pair, state)[1] != state]
    return dice.pick(moving if moving and dice.chance(65) else pairs)


def draw_pair(dice, role, table, state):
    lot = dice.below(100)
    if lot < 76:
        return draw_legal_pair(dice, role, table, state)
    if lot < 88:
        return dice.pick([pair for pair in EVERY_PAIR if engine.moves(role, *pair)])
    if lot < 94:
        return dice.pick([pair for pair in EVERY_PAIR if not engine.moves(role, *pair)])
    return wordless_pair(dice)


def draw_event(dice, book):
    _, s = engine.counts(book)
    if s == 0 or dice.chance(4):
        return stray_event(dice, s)
    number = dice.below(s)
    _, role, table, state = engine.seats_of(book)[number]
    return event(number, *draw_pair(dice, role, table, state))


def walk(dice, book, length):
    """A list drawn event by event from the state that the book is in by then."""
    book, events = bytearray(book), []
    for _ in range(length):
        events.append(draw_event(dice, book))
        engine.play_event(book, events[-1])
    return b"".join(events)


def group_of(book, one):
    """The activity of an event's seat, or None when it names no seat."""
    _, s = engine.counts(book)
    seat, _, _ = fields(one)
    return engine.seats_of(book)[seat][0] if seat < s else None


def grouped(book, events, items):
    """The items, one for each event, by the event's group and in their order."""
    groups = {}
    for one, item in zip(split_list(events), items):
        groups.setdefault(group_of(book, one), []).append(item)
    return groups


def shuffled_merge(dice, groups):
    """One list of all groups, each in its own order, drawn one event at a time."""
    waiting = [list(group) for group in groups]
    merged = []
    while waiting:
        merged.append(dice.pick(waiting).pop(0))
        waiting = [group for group in waiting if group]
    return b"".join(merged)


def interleaved_otherwise(dice, book, events):
    """The same groups in another interleaving, or None when there is just one group."""
    groups = list(grouped(book, events, split_list(events)).values())
    if len(groups) < 2:
        return None
    if dice.chance(20):
        # One group after the other is the interleaving furthest from a drawn one.
        other = b"".join(b"".join(group) for group in reversed(groups))
    else:
        other = shuffled_merge(dice, groups)
    return other if other != events else None
