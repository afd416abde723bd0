"""Journal texts: good lines, and lines with a fault in each of their parts."""

from typing import NamedTuple

import engine

NAMES = [name.encode() for name in engine.MESSAGES]
WAYS = (b"got", b"sent")
SEATS = (b"0", b"9", b"10", b"99", b"100", b"4095", b"65535")
SHORT_LINE = b"0 got Exit\n"
# Sixteen bytes, so that 4,096 of them are the longest text.
EVEN_LINE = b"0 sent Canceled\n"
EXAMPLE_JOURNAL = (b"0 sent Close\n1 sent Compensate\n1 sent Close\n"
                   b"0 got Fail\n1 got Closed\n2 sent Close\n")

BAD_SEATS = (
    b"", b"00", b"01", b"007", b"000", b"00000", b"065535", b"+1", b"-1", b"+", b"-",
    b"65536", b"65540", b"65599", b"66000", b"70000", b"99999", b"100000", b"655350",
    b"4294967296", b"1_0", b"0x1", b"1.", b"1,", b"1e1", b"a", b"A", b"O", b"l",
    b"\t0", b"0\t", b"0\r", b"\x00", b"0\x00", b"\x000", b"\xb2", b"\xd9\xa1", b"\xff",
    b"/", b":", b"0/", b"0:", b"9:", b"got", b"Exit", b"\xef\xbb\xbf0",
)
BAD_WAYS = (
    b"", b"Got", b"GOT", b"go", b"gott", b"got\t", b"\tgot", b"ot", b"g", b"tog",
    b"Sent", b"SENT", b"sen", b"send", b"sents", b"s", b"ent", b"sent\r", b"got\x00",
    b"\x00got", b"gat", b"got,", b"gotsent", b"\xffgot", b"0", b"1", b"received", b"Exit",
)
OLD_NAMES = (b"Cancelled", b"Fault", b"Faulted", b"Expired", b"GetStatus", b"Status",
             b"Close Compensate", b"Closing", b"Ended")
BAD_LINES = (
    (22, b"\n"), (22, b"0\n"), (22, b"12345\n"), (22, b"100000000000000000000\n"),
    (22, b"100000000000000000000 got\n"), (22, b" \n"), (22, b"  \n"), (22, b"\r\n"),
    (22, b"0\tgot\tExit\n"), (22, b"0gotExit\n"), (22, b"got Exit\n"), (22, b" 0 got Exit\n"),
    (22, b"Exit got 0\n"), (22, b"0\tgot Exit\n"), (22, b"0,got,Exit\n"), (22, b"\x00\n"),
    (22, b"0x got go\n"), (22, b"65536 gat Exxit\n"), (22, b"007 Got exit\n"),
    (23, b"0 \n"), (23, b"0 got\n"), (23, b"0 sent\n"), (23, b"0 gotExit\n"),
    (23, b"0  got Exit\n"), (23, b"0 got\tExit\n"), (23, b"0 Exit\n"), (23, b"0  \n"),
    (23, b"0 got\r\n"), (23, b"0 got\x00Exit\n"), (23, b"0 Got exit\n"), (23, b"0 s Exi\n"),
    (24, b"0 got \n"), (24, b"0 sent \n"), (24, b"0 got  Exit\n"), (24, b"0 got   \n"),
    (24, b"0 got Exit Exit\n"), (24, b"0 got got Exit\n"), (24, b"0 got 8\n"),
)
LONG_LINES = (
    b"100000000000000000000 got Exit\n", b"65535 sent CannotCompletee\n",
    b"65535 sent CannotComplete \n", b"65535 sent CannotComplete\r\n",
    b"0 sent CannotComplete       \n", b"000000065535 got NotCompleted\n", b"x" * 26 + b"\n",
    b"x" * 40 + b"\n", b" " * 26 + b"\n", b"0 got Exit" + b"\x00" * 16 + b"\n",
    b"0 got Exit" + b" " * 17 + b"\n", b"65535 sent  CannotComplete\n",
)
UNENDED_LINES = (
    b"0", b" ", b"0 ", b"0 got", b"0 got ", b"0 got Exi", b"0 got Exit", b"0 got Exit ",
    b"0 got Exit\r", b"x", b"\x00", b"\xff" * 3, b"65535 sent CannotComplete", b"x" * 25,
    b"x" * 26, b"x" * 27, b"007 got Exit",
)
FULL_LINES = ((24, b"65535 got CannotComplete \n"), (24, b"65535 sent CannotCompletE\n"),
              (22, b"x" * 25 + b"\n"), (23, b"0 " + b"x" * 23 + b"\n"),
              (24, b"0 got " + b"x" * 19 + b"\n"), (22, b" " * 25 + b"\n"))


class BadLine(NamedTuple):
    refusal: int
    text: bytes


def line_of(seat, way, name):
    return seat + b" " + way + b" " + name + b"\n"


def every_good_line():
    return [line_of(seat, way, name) for seat in SEATS for way in WAYS for name in NAMES]


def draw_line(dice):
    seat = dice.pick((dice.pick(SEATS), str(dice.below(65536)).encode(),
                      str(dice.below(30)).encode()))
    return line_of(seat, dice.pick(WAYS), dice.pick(NAMES))


def draw_lines(dice, count):
    return b"".join(draw_line(dice) for _ in range(count))


def near_names(name):
    """Spellings one slip away from a name."""
    slips = [name.lower(), name.upper(), name[:-1], name[1:], name[:1], name + name[-1:],
             name + b"s", name + b"d", name + b" ", name + b"\r", name + b"\t", name + b"\x00",
             b" " + name, b"\t" + name, name[:2] + b"\x00" + name[3:], name + name,
             name[:-1] + bytes([name[-1] | 0x80]), name[:3] + b" " + name[3:],
             name[:2] + name[1:2] + name[2:], name.swapcase()]
    return [slip for slip in slips if slip not in NAMES]


def bad_seat_lines(dice):
    return [BadLine(22, line_of(seat, dice.pick(WAYS), dice.pick((b"Exit", b"Fail", b"exit"))))
            for seat in BAD_SEATS]


def bad_way_lines(dice):
    return [BadLine(23, line_of(dice.pick(SEATS), way, dice.pick((b"Close", b"Fail", b"close"))))
            for way in BAD_WAYS]


def bad_name_lines(dice):
    slips = [slip for name in NAMES for slip in near_names(name)] + list(OLD_NAMES)
    lines = [line_of(dice.pick((b"0", b"9")), dice.pick(WAYS), slip) for slip in slips]
    return [BadLine(24, line) for line in lines if len(line) <= engine.LONGEST_LINE]


def bad_lines(dice):
    """Lines that are refused wherever they stand in a text."""
    return ([BadLine(*pair) for pair in BAD_LINES + FULL_LINES]
            + [BadLine(21, line) for line in LONG_LINES]
            + bad_seat_lines(dice) + bad_way_lines(dice) + bad_name_lines(dice))


def damaged_text(dice, text):
    """A good text with one byte changed, taken out, put in or swapped with the next."""
    at = dice.below(len(text))
    stray = dice.pick((dice.bytes(1), dice.pick((b" ", b"\n", b"0", b"1", b"e", b"t", b"\r"))))
    return dice.pick((text[:at] + stray + text[at + 1:],
                      text[:at] + text[at + 1:],
                      text[:at] + stray + text[at:],
                      text[:at] + text[at + 1:at + 2] + text[at:at + 1] + text[at + 2:]))


def longest_text():
    """65,536 bytes that are 4,096 good lines."""
    return EVEN_LINE * engine.MOST_EVENTS
