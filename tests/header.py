"""What the program header_cases must print: each number that include/lotend.h names, in its order.

Run at the repository's root; with --check it writes nothing and fails on a difference.
"""

import re
import sys
from pathlib import Path

HEADER = Path("include/lotend.h")
EXPECTED = Path("crates/header_cases/stdout")
NUMBER = re.compile(r"^\s*(LOTEND_[A-Z_]+) = (\d+)", re.MULTILINE)


def expected():
    return "".join(f"{name} {value}\n" for name, value in NUMBER.findall(HEADER.read_text()))


def main(arguments):
    if arguments == ["--check"]:
        raise SystemExit(EXPECTED.read_text() != expected())
    EXPECTED.write_text(expected())


main(sys.argv[1:])
