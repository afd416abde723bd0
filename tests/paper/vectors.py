"""The shape of a case file and of the text expected for it."""

import struct
import zlib
from typing import NamedTuple

LONGEST_SHOWN = 96
UNTOUCHED = 0xA5


class Vectors(NamedTuple):
    """Input cases, the text expected for them and how often each refusal is in it."""
    stdin: bytes
    stdout: bytes
    tally: dict


def blank_area(length):
    """A lent area as a case hands it over, so that a stray write shows."""
    return bytes([UNTOUCHED]) * length


def numbers(*values):
    return struct.pack(f"<{len(values)}I", *values)


def digest(data):
    return f"#{zlib.adler32(data):08x}"


def shown(data):
    """A byte string as its length and hex, or its digest where it is long."""
    if len(data) <= LONGEST_SHOWN:
        return f"{len(data)} {data.hex()}"
    return f"{len(data)} {digest(data)}"


def require(holds, what):
    """Stops the making of cases when they are not what they are meant to be."""
    if not holds:
        raise SystemExit(f"cases are wrong: {what}")


def require_counts(tally, least):
    for what, count in least.items():
        require(tally.get(what, 0) >= count, f"{what}: {tally.get(what, 0)} under {count}")
