"""Holds each example of docs/REFUSALS.md to what the engines give for it."""

import re
import subprocess
import sys
from pathlib import Path

from document import ProgramExample, read_document

ROOT = Path(__file__).resolve().parents[2]
sys.path.insert(0, str(ROOT / "tests" / "paper"))
import engine  # noqa: E402  (the paper's rules, found by the line above)

CONSTANT = re.compile(r"(LOTEND_REFUSED_\w+) = (\d+)")
BLANK = b"\xA5"


class Paper:
    """The rules typed in from the outline."""
    name = "the paper's rules"

    def report(self, given):
        return engine.report(given)

    def run(self, book, events, area):
        return engine.run(book, events, area)


class Library:
    """The proved library, behind a driver in C."""
    name = "the library"

    def __init__(self, driver):
        self.driver = driver

    def report(self, given):
        return output_of([self.driver, "program"], given)

    def run(self, book, events, area):
        lengths = [str(len(part)) for part in (book, events, area)]
        words = output_of([self.driver, "run", *lengths], book + events).decode().split("\n")
        returns, after, answers = (line.partition(" ")[2] for line in words[:3])
        return int(returns), bytes.fromhex(after), bytes.fromhex(answers)


class Program:
    """The program, which takes no event records."""
    name = "the program"

    def __init__(self, path):
        self.path = path

    def report(self, given):
        return output_of([self.path], given)

    run = None


def output_of(command, given):
    return subprocess.run(command, input=given, stdout=subprocess.PIPE, check=True).stdout


def printed_numbers(text):
    """The refusals in what the program printed: of the whole, or of its events."""
    lines = [line.split() for line in text.decode().splitlines()]
    if lines and lines[0][0] == "refused":
        return {int(lines[0][1])}
    return {int(line[4]) for line in lines if line[0].isdigit()}


def answered_numbers(returns, answers):
    return {returns} if returns else set(answers[::engine.ANSWER_BYTES])


def program_faults(subject, example):
    printed = subject.report(example.given)
    if printed != example.prints:
        yield f"prints {printed!r}"
    if example.number not in printed_numbers(printed):
        yield f"gives {sorted(printed_numbers(printed))}"


def run_faults(subject, example):
    """No event of these examples is legal, so each leaves the book as it was."""
    area = BLANK * example.area
    returns, book, after = subject.run(example.book, example.events, area)
    if (returns, after) != (example.returns, example.answers + area[len(example.answers):]):
        yield f"returns {returns} with the area {after.hex(' ')}"
    if book != example.book:
        yield f"leaves the book {book.hex(' ')}"
    numbers = answered_numbers(returns, after[:len(example.answers)])
    if example.number not in numbers:
        yield f"gives {sorted(numbers)}"


def for_subject(subject, examples):
    """The examples that the subject can be given."""
    return [example for example in examples if subject.run or isinstance(example, ProgramExample)]


def faults(subject, examples):
    """Every example that the subject does not do as the document says."""
    for example in examples:
        program = isinstance(example, ProgramExample)
        for fault in (program_faults if program else run_faults)(subject, example):
            yield (f"docs/REFUSALS.md:{example.line}: the example of {example.number}: "
                   f"{subject.name} {fault}")


def unshown(document, constants):
    """Numbers of the header without a section of their name or without an example."""
    shown = {example.number for example in document.examples}
    for number, name in sorted(constants.items()):
        if document.names.get(number) != name:
            yield f"docs/REFUSALS.md has no section ### {number} `{name}`"
        if number not in shown:
            yield f"docs/REFUSALS.md has no example of {number}"
    for number in sorted(document.names.keys() - constants.keys()):
        yield f"docs/REFUSALS.md: {number} is no refusal of include/lotend.h"


def refusals_of(header):
    return {int(number): name for name, number in CONSTANT.findall(header) if int(number)}


def main(driver):
    document = read_document((ROOT / "docs" / "REFUSALS.md").read_text())
    wrong = list(unshown(document, refusals_of((ROOT / "include" / "lotend.h").read_text())))
    program = ROOT / "crates" / "lotend" / "out" / "lotend"
    subjects = [Paper(), Library(driver)] + ([Program(program)] if program.is_file() else [])
    for subject in subjects:
        examples = for_subject(subject, document.examples)
        found = list(faults(subject, examples))
        wrong += found
        print(f"{subject.name}: {len(examples)} examples, {len(found)} faults")
    if not program.is_file():
        print("the program: not built")
    for fault in wrong:
        print(fault)
    raise SystemExit(1 if wrong else 0)


if __name__ == "__main__":
    main(*sys.argv[1:])
