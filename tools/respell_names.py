#!/usr/bin/env python3
"""Brings the repository's own definitions and lemmas to snake case, once, after the kit's port.py.

usage: python3 tools/respell_names.py [--list]     at the top of the repository

A name is one that a file of specs/ or of proofs/ declares (a definition, a lemma, a field or a constructor) and that has a dash or begins
with a small letter and has a capital. It becomes words joined by `_`. Names of src/, exported C names, strings, inputs and outputs stay:
none of them has such a form. A lemma whose words are those of a definition gets `_lem` behind them, as the kit's own lemmas do; two other
names that fall together stop the script.
"""

import os
import re
import sys

DECLARED = re.compile(r"^\s*((?:pub |unfoldable |abbrev )*)([^\s:(){},.;=|]+)((?: [^\s:(){},.;=|]+)*)(?: [({].*?)? :(?:\s|$)")
WORD = r"[\w'\-]"
USE = re.compile(r"^\s*(?:ghost )?(?:pub )?use ([^\s{]+?)(?:\.\{([^}]*)\})?(?: as \S+)?;?\s*$")


def own_crates():
    return sorted(os.listdir("crates"))


def files(*endings):
    for top in ("crates", "tests/wrong_programs"):
        for folder, dirs, names in os.walk(top):
            dirs[:] = sorted(d for d in dirs if d not in ("out", "target"))
            for name in sorted(names):
                if name.endswith(endings):
                    yield os.path.join(folder, name)


def read(path):
    with open(path, encoding="utf-8") as f:
        return f.read()


def snake(name):
    words = re.sub(r"(?<=[a-z0-9])([A-Z])", lambda m: "_" + m.group(1).lower(), name) if name[0].islower() else name
    return words.replace("-", "_")


def walked(path):
    """A proof by hand declares what the kit names: the goals of one function."""
    return path.endswith("/Proof.antt")


def declared():
    found = set()
    for path in files(".antt"):
        if walked(path):
            continue
        for line in read(path).splitlines():
            if line.lstrip().startswith(("--", "use ", "pub use ", "let ", "in ", "λ")):
                continue
            m = DECLARED.match(line)
            if m:
                found.update([m.group(2)] + m.group(3).split())
    return {n for n in found if re.fullmatch(r"[A-Za-z][\w']*(-[\w']+)*", n)}


def foreign():
    """Names that files take from the kit."""
    found = set()
    own = own_crates()
    for path in files(".antt", ".rt"):
        for line in read(path).splitlines():
            m = USE.match(line)
            if m and m.group(2):
                part = m.group(1).split(".")
                if part[0] == "Rattle" and part[1] in own:
                    continue
                found.update(w.strip().split(" as ")[0] for w in m.group(2).split(","))
    return found


def turn(endings, to, around):
    """Puts each name's new form for it, where it stands as a whole word."""
    if not to:
        return 0
    names = "|".join(re.escape(n) for n in sorted(to, key=len, reverse=True))
    pattern = re.compile(rf"(?<!{around})({names})(?!{around})")
    count = 0
    for path in files(*endings):
        text = read(path)
        turned = pattern.sub(lambda m: to[m.group(1)], text)
        if turned != text:
            with open(path, "w", encoding="utf-8") as f:
                f.write(turned)
            count += 1
    return count


def main():
    names = declared()
    to = {n: snake(n) for n in names if snake(n) != n}
    for n in sorted(foreign() & set(to)):
        print(f"of the kit, stays: {n}")
        del to[n]
    # A definition keeps its words, and the lemma that would have them too gets `_lem`.
    defined = {m for n, m in to.items() if "-" not in n}
    plain = {n: n + "_lem" for n in names & defined}
    kept = defined | (names - set(to))
    for n, m in to.items():
        if "-" in n and m in kept:
            to[n] = m + "_lem"
    for n, m in sorted({**to, **plain}.items()):
        if m.endswith("_lem"):
            print(f"a lemma beside a definition: {n} is now {m}")
    new = list(to.values()) + list(plain.values())
    for m in sorted(set(new)):
        if new.count(m) > 1 or m in names - set(plain):
            raise SystemExit(f"fall together: {m}")
    if "--list" in sys.argv:
        for n, m in sorted({**to, **plain}.items()):
            print(n, m)
        return
    count = turn((".antt",), plain, r"[\w'.\-]")
    count += turn((".antt", ".rt", ".edit"), to, WORD)
    print(f"{len(to) + len(plain)} names, {count} files written")


main()
