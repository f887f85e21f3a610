#!/usr/bin/env python3
"""Respells the repository's own definitions and lemmas in snake case, once, behind the kit's port.py.

port.py turns only those of the repository's names that a library spells alike; this turns the others the same way, so that there is one style:
`settledOf` and `ask-keeps` become `settled_of` and `ask_keeps`. Types, modules, constructors in camel case, functions of src/ and the names that
Rattle makes of them keep their spelling. What is turned: every .antt file of specs/ and proofs/ (Proof.antt files too), the ghost lines and clauses
of every .rt file, the edits of must-fail/ and tests/faults/, and the names between backquotes in the pages. `--list` only says what it would turn;
`--clash` says where two names fall together.
"""
import pathlib
import re
import sys

TOP = pathlib.Path(__file__).resolve().parents[2]
WORD = re.compile(r"[A-Za-z_ℕ][A-Za-z0-9_ℕ]*(?:-[A-Za-z0-9_ℕ≡≤<+*]+)*['′]*")
SIGNED = re.compile(r"^(\s*)((?:abbrev |unfoldable |opaque |irreducible |private )*)((?:pub )?)((?:[^\s(){}:,;]+ )+):\s")
# Names of one file alone: a lemma that a definition's new name meets there, and types in small letters.
APART = {
    "crates/table/proofs/Octets/JoinedCalls.antt": {"left_by": "left_by_lem"},
    "crates/bench/proofs/MonthStream.antt": {"small": "IsSmall"},
    "crates/bench/proofs/Fronts.antt": {"silent": "IsSilent"},
}
NOT_NAMES = {"let", "in", "use", "module", "record", "data", "where", "forall"}


def snake(name):
    """The new name; a lemma that would have a definition's name gets `_lem`."""
    if name in LEMMAS:
        return plain(name) + "_lem"
    return plain(name)


LEMMAS = set()


def plain(name):
    name = name.replace("-", "_").replace("′", "'")
    return re.sub(r"(?<=[a-z0-9])([A-Z])", lambda m: "_" + m.group(1), name).lower() if name[:1].islower() else name


def wants(name):
    return name[:1].islower() and bool(re.search(r"[A-Z′-]", name))


def code_of(line):
    """The line up to its comment."""
    at = re.search(r"(?:^|\s)--(?:\s|$)", line)
    return (line, "") if at is None else (line[: at.start()], line[at.start():])


def antt_files():
    return sorted(p for p in (TOP / "crates").rglob("*.antt") if "out" not in p.parts)


def is_proof(path):
    return path.name == "Proof.antt"


def declared(path):
    """The names that a file gives a type: definitions, fields, constructors."""
    for line in path.read_text().split("\n"):
        code, _ = code_of(line)
        m = SIGNED.match(code + " ")
        if m is None:
            continue
        words = m.group(4).split()
        if words[0] in NOT_NAMES:
            continue
        yield from (w for w in words if WORD.fullmatch(w))


def own_names():
    names = {}
    for path in antt_files():
        if is_proof(path):
            continue
        for name in declared(path):
            if wants(name):
                names.setdefault(name, set()).add(path.relative_to(TOP).as_posix())
    return names


def mark_lemmas(names):
    """Lemmas with a dash whose new name a definition in camel case has too."""
    camel = {plain(n) for n in names if "-" not in n}
    LEMMAS.update(n for n in names if "-" in n and plain(n) in camel and not any("/specs/" in p for p in names[n]))


def turned(text, names, kept=frozenset()):
    def one(m):
        word = m.group(0)
        return snake(word) if word in names and word not in kept else word

    return WORD.sub(one, text)


def turned_antt(text, names, kept, apart):
    out = []
    for line in text.split("\n"):
        code, said = code_of(line)
        code = WORD.sub(lambda m: apart.get(m.group(0), m.group(0)), code)
        out.append(turned(code, names, kept) + backquoted(said, names))
    return "\n".join(out)


def backquoted(text, names):
    return re.sub(r"`[^`\n]*`", lambda m: turned(m.group(0), names), text)


def camel_only(names):
    """In Rust's text a dash is a minus sign: only names without one are turned there."""
    return {n for n in names if "-" not in n}


def turned_rt(text, names):
    camel, out = camel_only(names), []
    for line in text.split("\n"):
        code, mark, said = line.partition("//")
        if code.lstrip().startswith("ghost use"):
            code = turned(code, names)
        elif '"' not in code:
            code = turned(code, camel)
        out.append(code + mark + backquoted(said, names))
    return "\n".join(out)


def turned_file(path, names):
    text = path.read_text()
    if path.suffix == ".antt":
        kept = {n for n in declared(path)} if is_proof(path) else frozenset()
        return text, turned_antt(text, names, kept, APART.get(path.relative_to(TOP).as_posix(), {}))
    if path.suffix == ".rt":
        return text, turned_rt(text, names)
    if path.suffix == ".edit":
        return text, turned(text, camel_only(names))
    return text, backquoted(text, names)


def pages():
    yield from antt_files()
    yield from sorted(p for p in (TOP / "crates").rglob("*.rt") if "out" not in p.parts)
    yield from sorted((TOP / "crates").rglob("*.edit"))
    yield from sorted((TOP / "tests" / "faults").rglob("*.edit"))
    yield from sorted((TOP / "docs").rglob("*.md"))
    yield TOP / "README.md"


def clashes(names):
    by_new = {}
    for name in names:
        by_new.setdefault(snake(name), set()).add(name)
    for new, olds in sorted(by_new.items()):
        if len(olds) > 1:
            print("together:", new, "<-", ", ".join(f"{o} ({' '.join(sorted(names[o]))})" for o in sorted(olds)))
    for path in antt_files():
        words = set()
        for line in path.read_text().split("\n"):
            words.update(WORD.findall(code_of(line)[0]))
        kept = {n for n in declared(path)} if is_proof(path) else frozenset()
        for word in sorted(w for w in words if w in names and w not in kept):
            if snake(word) in words or any(w != word and w in names and snake(w) == snake(word) for w in words):
                print(f"meets: {path.relative_to(TOP)}: {word} meets {snake(word)}")


def main():
    names = own_names()
    mark_lemmas(names)
    if "--list" in sys.argv:
        for name in sorted(names):
            print(f"{name} -> {snake(name)}")
        return
    if "--clash" in sys.argv:
        clashes(names)
        return
    for path in pages():
        old, new = turned_file(path, names)
        if old != new:
            path.write_text(new)


main()
