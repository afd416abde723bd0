"""Holds every name in docs/TRACE.md to the tree: each must be in the file that the page says.

Run as `python3 tests/refusals/trace_names.py`. It knows that a name is there, not what it says."""

import re
from pathlib import Path

ROOT = Path(__file__).resolve().parents[2]
QUOTED = re.compile(r"`([^`]+)`")
SPECIFIED = re.compile(r"(?P<crate>\w+)/(?P<file>\w+\.antt): (?P<names>.+)")
CODED = re.compile(r"(?P<crate>\w+)::(?P<within>(?:\w+::)*)(?P<name>\w+)")
EDITED = re.compile(r"(?P<crate>\w+)/(?P<label>\w+)\.edit")
TRIED = re.compile(r"edits/(?P<path>\w+/\w+\.edit)")
MADE = re.compile(r"(?P<file>\w+\.py): (?P<names>.+)")
MUTATED = re.compile(r"mutants\.rs: (?P<names>.+)")
PLACED = re.compile(r"(?P<path>(?:tests|crates|examples|include)/[\w./-]+)(?:: (?P<names>.+))?")


def text_of(path):
    return path.read_text() if path.is_file() else ""


def declared(text, name):
    """Whether a file of specs or proofs declares the name: `name : ..`, a record or a type."""
    word = re.escape(name)
    return re.search(rf"^\s*(?:abbrev |unfoldable )?(?:pub )?{word} :|\b(?:record|data) {word}\b",
                     text, re.MULTILINE)


def coded(text, name):
    return re.search(rf"\b(?:fn|struct|enum) {name}\b", text)


def missing(path, names, found, beside=None):
    """The names, parted by commas, that are not found in the file's text, nor in the file beside it."""
    text = text_of(path) + (text_of(beside) if beside else "")
    return [f"{path.relative_to(ROOT)}: {name}" for name in names.split(", ")
            if not found(text, name)]


def has_word(text, name):
    return re.search(rf"\b{re.escape(name)}\b", text)


def impls_of(text, owner):
    """The blocks in which a type has its functions, a trait's or its own."""
    head = rf"^impl(?:<[^>\n]*>)? (?:[^\n{{]* for )?{re.escape(owner)}\b[^\n{{]*{{$"
    return re.findall(head + r".*?^}", text, re.MULTILINE | re.DOTALL)


def in_source(crate, within, name):
    """Looks for a name in its crate, within the module and the type's `impl`s that it names."""
    source = ROOT / "crates" / crate / "src"
    modules = [part for part in within if part[0].islower()]
    types = [part for part in within if part[0].isupper()]
    paths = [source / f"{modules[-1]}.rt"] if modules else source.glob("*.rt")
    texts = [text_of(path) for path in paths]
    if types:
        texts = [block for text in texts for block in impls_of(text, types[-1])]
    return [] if any(coded(text, name) for text in texts) else ["::".join([crate, *within, name])]


def faults_of(quoted):
    """What is wrong with one quoted name; nothing where it is no name of the tree."""
    crates, paper = ROOT / "crates", ROOT / "tests" / "paper"
    if match := SPECIFIED.fullmatch(quoted):
        crate = crates / match["crate"]
        return missing(crate / "specs" / match["file"], match["names"], declared,
                       crate / "proofs" / match["file"])
    if match := CODED.fullmatch(quoted):
        return in_source(match["crate"], match["within"].split("::")[:-1], match["name"])
    if match := EDITED.fullmatch(quoted):
        path = crates / match["crate"] / "must-fail" / f"{match['label']}.edit"
        return [] if path.is_file() else [quoted]
    if match := TRIED.fullmatch(quoted):
        path = ROOT / "tests" / "wrong_programs" / "edits" / match["path"]
        return [] if path.is_file() else [quoted]
    if match := MUTATED.fullmatch(quoted):
        mutants = ROOT / "tests" / "differential" / "src" / "mutants.rs"
        return missing(mutants, match["names"], lambda text, name: f'"{name}"' in text)
    if match := MADE.fullmatch(quoted):
        return missing(paper / match["file"], match["names"], has_word)
    if match := PLACED.fullmatch(quoted):
        path = ROOT / match["path"]
        return missing(path, match["names"] or "", has_word) if path.is_file() else [quoted]
    return []


def known(quoted):
    patterns = (SPECIFIED, CODED, EDITED, TRIED, MUTATED, MADE, PLACED)
    return any(pattern.fullmatch(quoted) for pattern in patterns)


def main():
    quotes = QUOTED.findall((ROOT / "docs" / "TRACE.md").read_text())
    named = [quoted for quoted in quotes if known(quoted) and ".." not in quoted]
    wrong = sorted({fault for quoted in named for fault in faults_of(quoted)})
    for fault in wrong:
        print(f"docs/TRACE.md names what is not there: {fault}")
    print(f"docs/TRACE.md: {len(named)} names, {len(wrong)} not in the tree")
    raise SystemExit(1 if wrong else 0)


if __name__ == "__main__":
    main()
