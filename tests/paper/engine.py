"""The outline's rules typed in from the paper, to compare the engine with."""

import re
import struct
from typing import NamedTuple

COORDINATOR, PARTICIPANT = 1, 2
PLAIN, SPLIT = 1, 2
RECEIVED, SENT = 0, 1
WAY_WORDS = {b"got": RECEIVED, b"sent": SENT}

MESSAGES = {
    "Cancel": 1, "Complete": 2, "Close": 3, "Compensate": 4,
    "Failed": 5, "Exited": 6, "NotCompleted": 7,
    "Exit": 8, "Completed": 9, "Fail": 10, "CannotComplete": 11,
    "Canceled": 12, "Closed": 13, "Compensated": 14,
}
LAST_TO_PARTICIPANT, LAST_MESSAGE = 7, 14

CANCELING_COMPLETING, CLOSING, COMPENSATING, FAILING_COMPENSATING = 3, 6, 7, 9
ENDED, LAST_STATE = 12, 15

NONE, IGNORE, REPLY, FORGET = 0, 1, 2, 3

ATOMIC, MIXED = 1, 2
NO_DIRECTION, TO_CLOSE, TO_COMPENSATE = 0, 1, 2

HEADER_BYTES, ACTIVITY_BYTES, SEAT_BYTES = 8, 2, 4
EVENT_BYTES = ANSWER_BYTES = 4
MOST_ACTIVITIES, MOST_SEATS, MOST_EVENTS = 256, 4096, 4096

LONGEST_LINE, LONGEST_TEXT, LAST_SEAT_NUMBER = 26, 65536, 65535

BOOK_SHORT, BOOK_SHAPE, BAD_ACTIVITY, BAD_SEAT, AGAINST_ACTIVITY = 1, 2, 3, 4, 5
BAD_LIST, SHORT_AREA = 6, 7
NO_SEAT, NO_MESSAGE, NOT_MOVED, INVALID_STATE, AGAINST_DIRECTION = 11, 12, 13, 14, 15
NO_NEWLINE, NO_NUMBER, NO_WAY, NO_NAME, NO_ROOM, TEXT_LONG = 21, 22, 23, 24, 25, 26

# The paper's words. "P" is the plain table, "S" the split one, no letter both;
# "again" is a send that stays in the ended state that it leads to.
COORDINATOR_RECEIVES = {
    "Exit": "1–4→11; 11 ignore; P 12 and S 14 reply Exited; S 12, 13, 15 ignore",
    "Completed": "3, 4→5; 5, 9 and ended ignore; 6 reply Close; 7 reply Compensate",
    "Fail": "1–4→8; 7→9; 8, 9 ignore; P 12 and S 13 reply Failed; S 12, 14, 15 ignore",
    "CannotComplete": "1–4→10; 10 ignore; P 12 and S 15 reply NotCompleted; "
                      "S 12, 13, 14 ignore",
    "Canceled": "2, 3→12 forget; ended ignore",
    "Closed": "6→12 forget; ended ignore",
    "Compensated": "7→12 forget; ended ignore",
}
COORDINATOR_SENDS = {
    "Cancel": "1→2; 2→2; 3→3; 4→3",
    "Complete": "1→4; 4→4",
    "Close": "5→6; 6→6",
    "Compensate": "5→7; 7→7",
    "Failed": "8, 9→P 12, S 13; P 12 and S 13 again",
    "Exited": "11→P 12, S 14; P 12 and S 14 again",
    "NotCompleted": "10→P 12, S 15; P 12 and S 15 again",
}
PARTICIPANT_RECEIVES = {
    "Cancel": "1, 4→2; 2, 6, 7, 9 ignore; 5 reply Completed; 8 reply Fail; "
              "10 reply CannotComplete; 11 reply Exit; P 12 and S 13 reply Canceled; "
              "S 12, 14, 15 ignore",
    "Complete": "1→4; 2, 4, 6, 7, 9 ignore; 5 reply Completed; 8 reply Fail; "
                "10 reply CannotComplete; 11 reply Exit; "
                "P 12 and S 13, 14, 15 reply Fail; S 12 ignore",
    "Close": "5→6; 6 ignore; P 12 and S 14 reply Closed; S 12, 13, 15 ignore",
    "Compensate": "5→7; 7 ignore; 9 reply Fail; P 12 and S 15 reply Compensated; "
                  "S 12, 13, 14 ignore",
    "Failed": "8, 9→12 forget; ended ignore",
    "Exited": "11→12 forget; ended ignore",
    "NotCompleted": "10→12 forget; ended ignore",
}
PARTICIPANT_SENDS = {
    "Exit": "1, 4, 11→11",
    "Completed": "4, 5→5",
    "Fail": "1, 2, 4, 8→8; 7, 9→9",
    "CannotComplete": "1, 4, 10→10",
    "Canceled": "2→P 12, S 13; P 12 and S 13 again",
    "Closed": "6→P 12, S 14; P 12 and S 14 again",
    "Compensated": "7→P 12, S 15; P 12 and S 15 again",
}
RULES = (
    (COORDINATOR, RECEIVED, COORDINATOR_RECEIVES),
    (COORDINATOR, SENT, COORDINATOR_SENDS),
    (PARTICIPANT, RECEIVED, PARTICIPANT_RECEIVES),
    (PARTICIPANT, SENT, PARTICIPANT_SENDS),
)
CLAUSE = re.compile(r"(?P<places>[^→]+?)(?:→(?P<target>[PS0-9, ]*[0-9])(?P<forget> forget)?"
                    r"| (?P<word>ignore|again)| reply (?P<reply>\w+))")


class Row(NamedTuple):
    """One state of one table and what a message does to a seat in it."""
    role: int
    table: int
    way: int
    message: int
    state: int
    after: int
    action: int
    reply: int


def table_of(place):
    """The tables that a place such as "S 12, 13" speaks of, and the rest of it."""
    if place[:2] == "P ":
        return (PLAIN,), place[2:]
    if place[:2] == "S ":
        return (SPLIT,), place[2:]
    return (PLAIN, SPLIT), place


def listed_states(words, table):
    """The states in "1–4", "12, 13" or "ended"."""
    if words == "ended":
        return [ENDED] if table == PLAIN else list(range(ENDED, LAST_STATE + 1))
    if "–" in words:
        first, last = words.split("–")
        return list(range(int(first), int(last) + 1))
    return [int(word) for word in words.split(", ")]


def target_state(target, table):
    """The state in "11", or this table's one in "P 12, S 13"."""
    letter = "P" if table == PLAIN else "S"
    choices = dict(part.split(" ") for part in target.split(", ") if " " in part)
    return int(choices[letter] if choices else target)


def effect(way, clause, state, table):
    """State after, action and reply of a matched clause in one state."""
    if clause["word"] == "ignore":
        return state, IGNORE, 0
    if clause["reply"]:
        return state, REPLY, MESSAGES[clause["reply"]]
    after = state if clause["word"] == "again" else target_state(clause["target"], table)
    ends = state < ENDED <= after
    forgets = ends if way == SENT else bool(clause["forget"])
    return after, FORGET if forgets else NONE, 0


def clause_rows(role, way, message, words):
    """The rows of one clause, such as "P 12 and S 14 reply Exited"."""
    clause = CLAUSE.fullmatch(words)
    if not clause:
        raise ValueError(f"not a clause: {words}")
    for place in clause["places"].split(" and "):
        in_tables, listed = table_of(place)
        for table in in_tables:
            for state in listed_states(listed, table):
                yield Row(role, table, way, MESSAGES[message], state,
                          *effect(way, clause, state, table))


def tables():
    """Every listed pair of state and message, in the paper's order."""
    return [row
            for role, way, rule in RULES
            for message, clauses in rule.items()
            for words in clauses.split("; ")
            for row in clause_rows(role, way, message, words)]


def has_state(role, table, state):
    """Whether a seat of this role under this table can be in this state."""
    if role not in (COORDINATOR, PARTICIPANT) or table not in (PLAIN, SPLIT):
        return False
    if role == PARTICIPANT and state == CANCELING_COMPLETING:
        return False
    return 1 <= state <= (ENDED if table == PLAIN else LAST_STATE)


def index_rows(rows):
    """The rows by pair; a pair said twice or in a missing state is a slip in the typing."""
    by_pair = {}
    for row in rows:
        if row[:5] in by_pair or not has_state(row.role, row.table, row.state):
            raise ValueError(f"listed wrongly: {row}")
        if not has_state(row.role, row.table, row.after):
            raise ValueError(f"leads nowhere: {row}")
        by_pair[row[:5]] = (0, row.after, row.action, row.reply)
    return by_pair


LISTED = index_rows(tables())


def answer(role, table, way, message, state):
    """Refusal, state after, action and reply of a message at a seat, for any bytes."""
    return LISTED.get((role, table, way, message, state), (INVALID_STATE, state, 0, 0))


def moves(role, way, message):
    """Whether this role moves this message this way."""
    if role not in (COORDINATOR, PARTICIPANT) or way not in (RECEIVED, SENT):
        return False
    if not 1 <= message <= LAST_MESSAGE:
        return False
    to_participant = message <= LAST_TO_PARTICIPANT
    return to_participant == ((role, way) in ((COORDINATOR, SENT), (PARTICIPANT, RECEIVED)))


def direction_needed(state):
    """The direction that a coordinator seat in this state needs of an atomic activity."""
    return {CLOSING: TO_CLOSE, COMPENSATING: TO_COMPENSATE,
            FAILING_COMPENSATING: TO_COMPENSATE}.get(state, NO_DIRECTION)


def direction_asked(message):
    """The direction that a coordinator asks for by sending this message."""
    return {MESSAGES["Close"]: TO_CLOSE,
            MESSAGES["Compensate"]: TO_COMPENSATE}.get(message, NO_DIRECTION)


def activity_at(index):
    return HEADER_BYTES + ACTIVITY_BYTES * index


def seat_at(activities, index):
    return activity_at(activities) + SEAT_BYTES * index


def counts(book):
    """Activity and seat count as the header gives them."""
    return struct.unpack_from("<2H", book)


def activities_of(book):
    a, _ = counts(book)
    return [tuple(book[activity_at(n):activity_at(n + 1)]) for n in range(a)]


def seats_of(book):
    a, s = counts(book)
    return [tuple(book[seat_at(a, n):seat_at(a, n + 1)]) for n in range(s)]


def shape_holds(book):
    a, s, activities_offset, seats_offset = struct.unpack_from("<4H", book)
    return (a <= MOST_ACTIVITIES and s <= MOST_SEATS
            and activities_offset == HEADER_BYTES
            and seats_offset == HEADER_BYTES + ACTIVITY_BYTES * a
            and len(book) == HEADER_BYTES + ACTIVITY_BYTES * a + SEAT_BYTES * s)


def activity_holds(kind, direction):
    if kind == MIXED:
        return direction == NO_DIRECTION
    return kind == ATOMIC and direction in (NO_DIRECTION, TO_CLOSE, TO_COMPENSATE)


def seat_fits(seat, activity_records):
    """Whether a seat does not stand against its activity's direction."""
    activity, role, _, state = seat
    kind, direction = activity_records[activity]
    if kind != ATOMIC or role != COORDINATOR:
        return True
    return direction_needed(state) in (NO_DIRECTION, direction)


def check_book(book):
    """The book's refusal, 1 to 5, or 0."""
    if len(book) < HEADER_BYTES:
        return BOOK_SHORT
    if not shape_holds(book):
        return BOOK_SHAPE
    activity_records, seat_records = activities_of(book), seats_of(book)
    if not all(activity_holds(*record) for record in activity_records):
        return BAD_ACTIVITY
    if not all(activity < len(activity_records) and has_state(role, table, state)
               for activity, role, table, state in seat_records):
        return BAD_SEAT
    if not all(seat_fits(seat, activity_records) for seat in seat_records):
        return AGAINST_ACTIVITY
    return 0


def check_list(events, area):
    """The event list's refusal, 6 or 7, or 0."""
    if len(events) % EVENT_BYTES or len(events) > EVENT_BYTES * MOST_EVENTS:
        return BAD_LIST
    return SHORT_AREA if len(area) < len(events) else 0


def judge_direction(book, seat, message):
    """Whether a legal send agrees with the seat's activity; it may set the direction."""
    activity, role, _, _ = seat
    at = activity_at(activity)
    asked = direction_asked(message)
    if not asked or role != COORDINATOR or book[at] != ATOMIC:
        return True
    if book[at + 1] == NO_DIRECTION:
        book[at + 1] = asked
    return book[at + 1] == asked


def play_event(book, event):
    """The answer to one event on a good book, which is changed where it stands."""
    number, way, message = struct.unpack("<HBB", event)
    a, s = counts(book)
    if number >= s:
        return NO_SEAT, 0, 0, 0
    at = seat_at(a, number)
    seat = tuple(book[at:at + SEAT_BYTES])
    _, role, table, state = seat
    if way not in (RECEIVED, SENT) or not 1 <= message <= LAST_MESSAGE:
        return NO_MESSAGE, state, 0, 0
    if not moves(role, way, message):
        return NOT_MOVED, state, 0, 0
    found = answer(role, table, way, message, state)
    if found[0] == 0 and way == SENT and not judge_direction(book, seat, message):
        return AGAINST_DIRECTION, state, 0, 0
    book[at + 3] = found[1]
    return found


def run(book, events, answers_area):
    """Refusal, book after and answer area after."""
    refusal = check_book(book) or check_list(events, answers_area)
    if refusal:
        return refusal, bytes(book), bytes(answers_area)
    book, area = bytearray(book), bytearray(answers_area)
    for at in range(0, len(events), EVENT_BYTES):
        area[at:at + ANSWER_BYTES] = bytes(play_event(book, events[at:at + EVENT_BYTES]))
    return 0, bytes(book), bytes(area)


def seat_number(field):
    """The seat that a line's first field names, or None."""
    if not field.isdigit() or (field[:1] == b"0" and field != b"0"):
        return None
    number = int(field)
    return number if number <= LAST_SEAT_NUMBER else None


def read_line(line):
    """A line without its newline: refusal and event record."""
    first, space, rest = line.partition(b" ")
    seat = seat_number(first)
    if not space or seat is None:
        return NO_NUMBER, b""
    second, space, name = rest.partition(b" ")
    if not space or second not in WAY_WORDS:
        return NO_WAY, b""
    for spelling, message in MESSAGES.items():
        if name == spelling.encode():
            return 0, struct.pack("<HBB", seat, WAY_WORDS[second], message)
    return NO_NAME, b""


def read_journal(text, area):
    """Refusal, line number, event count and area after."""
    if len(text) > LONGEST_TEXT:
        return TEXT_LONG, 0, 0, bytes(area)
    records, at, line = b"", 0, 0
    while at < len(text):
        line += 1
        end = text.find(b"\n", at, at + LONGEST_LINE)
        if end < 0:
            return NO_NEWLINE, line, 0, bytes(area)
        refusal, record = read_line(text[at:end])
        if refusal:
            return refusal, line, 0, bytes(area)
        if len(records) + EVENT_BYTES > min(len(area), EVENT_BYTES * MOST_EVENTS):
            return NO_ROOM, line, 0, bytes(area)
        records += record
        at = end + 1
    return 0, 0, len(records) // EVENT_BYTES, records + bytes(area[len(records):])


def listing(book, events):
    """The lines of a good book and a good journal."""
    _, after, answers = run(book, events, bytes(len(events)))
    lines = ["book %d %d" % counts(book)]
    for at in range(0, len(events), EVENT_BYTES):
        event = struct.unpack_from("<HBB", events, at)
        fields = (at // EVENT_BYTES + 1, *event, *answers[at:at + ANSWER_BYTES])
        lines.append(" ".join(map(str, fields)))
    for number, seat in enumerate(seats_of(after)):
        lines.append(f"seat {number} {seat[3]}")
    return "".join(line + "\n" for line in lines).encode()


def report(given):
    """What the program prints for this standard input."""
    if len(given) < HEADER_BYTES:
        return b"refused %d\n" % BOOK_SHORT
    a, s = counts(given)
    book_bytes = HEADER_BYTES + ACTIVITY_BYTES * a + SEAT_BYTES * s
    if len(given) < book_bytes:
        return b"refused %d\n" % BOOK_SHAPE
    book, text = given[:book_bytes], given[book_bytes:]
    refusal = check_book(book)
    if refusal:
        return b"refused %d\n" % refusal
    refusal, line, count, area = read_journal(text, bytes(EVENT_BYTES * MOST_EVENTS))
    if refusal:
        return b"refused %d line %d\n" % (refusal, line)
    return listing(book, area[:EVENT_BYTES * count])
