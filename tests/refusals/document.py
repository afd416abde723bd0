"""The examples of docs/REFUSALS.md, taken out of its text."""

import re
from typing import NamedTuple

HEADING = re.compile(r"### (?P<number>\d+) `(?P<name>LOTEND_REFUSED_\w+)`")
FENCE = re.compile(r"```(?P<kind>program|run)")
TIMES = re.compile(r"(?P<count>[\d,]+) times: (?P<what>.*)")


class ProgramExample(NamedTuple):
    """Standard input of the program and what it prints."""
    number: int
    line: int
    given: bytes
    prints: bytes


class RunExample(NamedTuple):
    """A call of `lotend_run`: the answer area's length, and what the call returns and writes."""
    number: int
    line: int
    book: bytes
    events: bytes
    area: int
    returns: int
    answers: bytes


class Block(NamedTuple):
    """A fenced block: its kind, its section's number, and its lines by their first word."""
    kind: str
    number: int
    line: int
    entries: list


class Document(NamedTuple):
    names: dict
    examples: list


def repeated(words):
    """How often, and what: "4,097 times: 0 got Exit", or once what stands there."""
    times = TIMES.fullmatch(words)
    return (int(times["count"].replace(",", "")), times["what"]) if times else (1, words)


def hex_bytes(words):
    count, what = repeated(words)
    return bytes.fromhex(what.replace(",", " ")) * count


def journal_lines(words):
    count, what = repeated(words)
    return (what.encode() + b"\n") * count


READERS = {
    "program": {"book": hex_bytes, "journal": journal_lines, "unended": str.encode,
                "prints": journal_lines},
    "run": {"book": hex_bytes, "events": hex_bytes, "area": int, "returns": int,
            "answers": hex_bytes},
}


def unreadable(line, why):
    return SystemExit(f"docs/REFUSALS.md:{line}: {why}")


def entry(kind, text, line):
    """A line of a block: its first word and what the rest of it says."""
    word, _, words = text.partition(" ")
    if word not in READERS[kind]:
        raise unreadable(line, f"no such line in a {kind} example: {text}")
    return word, READERS[kind][word](words)


def program_example(block):
    given = b"".join(value for word, value in block.entries if word != "prints")
    prints = b"".join(value for word, value in block.entries if word == "prints")
    return ProgramExample(block.number, block.line, given, prints)


def run_example(block):
    said = dict(block.entries)
    for word in ("book", "area", "returns"):
        if word not in said:
            raise unreadable(block.line, f"a run example without its line {word}")
    return RunExample(block.number, block.line, said["book"], said.get("events", b""),
                      said["area"], said["returns"], said.get("answers", b""))


def blocks(lines):
    """Every example's block, in order."""
    number, block = None, None
    for line, text in enumerate(lines, 1):
        heading, fence = HEADING.fullmatch(text), FENCE.fullmatch(text)
        if heading:
            number = int(heading["number"])
        elif block and text == "```":
            yield block
            block = None
        elif block:
            block.entries.append(entry(block.kind, text, line))
        elif fence:
            block = Block(fence["kind"], number, line, [])
        elif text.startswith("```"):
            raise unreadable(line, f"neither a program nor a run example: {text}")


def read_document(text):
    lines = text.splitlines()
    headings = [found for found in map(HEADING.fullmatch, lines) if found]
    names = {int(found["number"]): found["name"] for found in headings}
    make = {"program": program_example, "run": run_example}
    return Document(names, [make[block.kind](block) for block in blocks(lines)])
