"""Writes the input cases and the texts expected for them.

Run at the repository's root; with --check it writes nothing and fails on a difference.
"""

import sys
from pathlib import Path

import desk_cases
import engine
import journal_cases
import rule_lines
import run_cases
import tables_page

FOLDER = Path("crates")
MAKERS = (("run_cases", run_cases), ("journal_cases", journal_cases), ("desk_cases", desk_cases))


def order(what):
    """Words by name, numbers by size."""
    return [(word.isdigit(), int(word) if word.isdigit() else 0, word) for word in what.split()]


def print_tally(name, vectors):
    print(f"{name}: {len(vectors.stdin)} bytes in, {len(vectors.stdout)} bytes expected")
    for what in sorted(vectors.tally, key=order):
        print(f"  {what}: {vectors.tally[what]}")


def make_all():
    """Every file's bytes by its path."""
    made = {FOLDER / "rules_cases" / "stdout": rule_lines.expected()}
    print(f"rules_cases: {len(made[FOLDER / 'rules_cases' / 'stdout'])} bytes expected, "
          f"{len(engine.LISTED)} listed pairs")
    for name, maker in MAKERS:
        vectors = maker.make()
        print_tally(name, vectors)
        made[FOLDER / name / "stdin"] = vectors.stdin
        made[FOLDER / name / "stdout"] = vectors.stdout
    made[FOLDER / "tables_page" / "stdout"] = tables_page.expected()
    made[Path("docs", "TABLES.md")] = tables_page.expected()
    made[FOLDER / "lotend" / "stdin"] = desk_cases.EXAMPLE
    made[FOLDER / "lotend" / "stdout"] = engine.report(desk_cases.EXAMPLE)
    return made


def write(made):
    for path, data in made.items():
        path.parent.mkdir(parents=True, exist_ok=True)
        path.write_bytes(data)


def differing(made):
    return [path for path, data in made.items()
            if not path.is_file() or path.read_bytes() != data]


def main(arguments):
    if arguments not in ([], ["--check"]):
        raise SystemExit("usage: python3 tests/paper/make_cases.py [--check]")
    if not Path("tests", "paper").is_dir():
        raise SystemExit("run this at the repository's root")
    made = make_all()
    if not arguments:
        write(made)
        return
    different = differing(made)
    for path in different:
        print(f"differs: {path}")
    raise SystemExit(1 if different else 0)


if __name__ == "__main__":
    main(sys.argv[1:])
