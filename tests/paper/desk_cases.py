"""Cases of the program: what it is given and the report it prints."""

from collections import Counter

import books
import engine
import journals
import lists
from dice import Dice
from engine import ATOMIC, COORDINATOR, MIXED, PARTICIPANT, PLAIN, SPLIT
from vectors import Vectors, digest, numbers, require, require_counts

SEED = 3
MOST_INPUT_BYTES, LONGEST_REPORT = 90000, 1000
EMPTY_BOOK = books.book_of([], [])
EXAMPLE = books.EXAMPLE_BOOK + journals.EXAMPLE_JOURNAL
PAIR_BOOK = books.book_of(
    [(ATOMIC, 1), (ATOMIC, 2), (MIXED, 0)],
    [(0, COORDINATOR, SPLIT, 6), (1, COORDINATOR, PLAIN, 9), (2, PARTICIPANT, PLAIN, 5),
     (2, COORDINATOR, SPLIT, 15)])
ODD_JOURNALS = (
    b"", b"\n", b"0", b"0 got Exit", b"007 got Exit\n", b"65535 got Exit\n",
    b"65536 got Exit\n", b"0 got Cancelled\n", b"0 Got Exit\n", b"0  got Exit\n",
    b"0 got Exit \n", b"0 got Exit\r\n", b"0 got Exit\n\n", b"x" * 30, b"0 got exit\n",
    b"65535 sent CannotComplete\n", b"65535 sent CannotComplete \n", b"0 sent Close\n1 sent\n",
    b"0 sent Close\n" * 6 + b"1 sent Closed", b"\0" * 20,
)
LINE_OF = {(way, message): b" " + word + b" " + name.encode() + b"\n"
           for word, way in engine.WAY_WORDS.items()
           for name, message in engine.MESSAGES.items()}


def written(events):
    """The journal that an event list is read from; events without words are left out."""
    text = b""
    for one in lists.split_list(events):
        seat, way, message = lists.fields(one)
        if (way, message) in LINE_OF:
            text += str(seat).encode() + LINE_OF[way, message]
    return text


def cut_inputs():
    """Inputs that end at each length within the header and the book."""
    return [book[:length] for book in (books.EXAMPLE_BOOK, PAIR_BOOK)
            for length in range(len(book) + 1)]


def cut_example():
    """The worked example ending at each byte of its journal's first two lines."""
    start = len(books.EXAMPLE_BOOK)
    return [EXAMPLE[:length] for length in range(start, start + 32)]


def fault_inputs(dice):
    """Damaged books before good, bad and empty journals."""
    inputs = []
    for _ in range(6):
        book = books.opposed_book(dice, dice.between(2, 6))
        text = written(lists.walk(dice, book, 4))
        for faults in list(books.single_faults(book).values())[1:]:
            bad = dice.pick(faults).damage(book)
            inputs += [bad + text, bad + dice.pick(ODD_JOURNALS)]
    return inputs


def journal_inputs(dice):
    """Good books before journals of every sort."""
    bad_lines = journals.bad_lines(dice)
    inputs = [book + text for book in (EMPTY_BOOK, books.EXAMPLE_BOOK, PAIR_BOOK)
              for text in ODD_JOURNALS]
    for _ in range(30):
        good = written(lists.walk(dice, PAIR_BOOK, dice.between(0, 6)))
        inputs.append(PAIR_BOOK + good + dice.pick(bad_lines).text)
    return inputs


def walk_inputs(dice):
    inputs = []
    for _ in range(60):
        book = books.small_book(dice)
        inputs.append(book + written(lists.walk(dice, book, dice.between(0, 40))))
    return inputs


def draw_line(dice, seats):
    """A line that is legal at its seat at the start."""
    number = dice.below(len(seats))
    _, role, table, state = seats[number]
    return str(number).encode() + LINE_OF[lists.draw_legal_pair(dice, role, table, state)]


def full_journal(dice, book):
    """4,096 lines, each the shortest of a few so that together they are no text too long."""
    seats = engine.seats_of(book)
    text = b"".join(min((draw_line(dice, seats) for _ in range(6)), key=len)
                    for _ in range(engine.MOST_EVENTS))
    require(len(text) <= engine.LONGEST_TEXT, "the full journal is too long")
    return text


def large_inputs(dice):
    """The largest book and the longest journals, and one more of each."""
    full = books.draw_book(dice, engine.MOST_ACTIVITIES, engine.MOST_SEATS)
    most = journals.SHORT_LINE * engine.MOST_EVENTS
    longest = journals.longest_text()
    bad_book = books.put(engine.activity_at(0), 3)(books.EXAMPLE_BOOK)
    return [full + full_journal(dice, full), full, full[:-1], full + longest,
            full + longest + b"\n",
            books.draw_book(dice, 1, engine.MOST_SEATS + 1),
            books.draw_book(dice, engine.MOST_ACTIVITIES + 1, 1),
            books.EXAMPLE_BOOK + most + journals.SHORT_LINE,
            EMPTY_BOOK + most + journals.SHORT_LINE * 2,
            bad_book + longest + b"\n", EMPTY_BOOK.ljust(MOST_INPUT_BYTES, b"\n")]


def all_inputs():
    dice = Dice(SEED)
    return ([EXAMPLE] + cut_inputs() + cut_example() + fault_inputs(dice)
            + journal_inputs(dice) + walk_inputs(dice) + large_inputs(dice))


def told(report):
    """How a report is counted: by its refusal, or as a listing."""
    words = report.split(None, 2)
    return f"report {int(words[1])}" if words[0] == b"refused" else "report 0"


def make():
    inputs, tally = all_inputs(), Counter()
    stdin, stdout = bytearray(), bytearray()
    for number, given in enumerate(inputs, 1):
        require(len(given) <= MOST_INPUT_BYTES, "an input too long")
        report = engine.report(given)
        stdin += numbers(len(given)) + given
        stdout += b"case %d\n" % number
        if len(report) <= LONGEST_REPORT:
            stdout += report
        else:
            stdout += f"long {len(report)} {digest(report)}\n".encode()
            tally["long report"] += 1
        tally[told(report)] += 1
    require_counts(tally, {f"report {one}": 3 for one in (*range(6), *range(21, 25))})
    require_counts(tally, {"report 25": 2, "report 26": 2, "long report": 3})
    require(len(inputs) >= 120 and len(stdin) < 600000, "the number or size of desk cases")
    return Vectors(bytes(stdin), bytes(stdout), tally)
