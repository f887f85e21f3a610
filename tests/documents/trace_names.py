"""Checks every name in docs/TRACE.md, and those in the other documents (doc_names.py):
python3 -m tests.documents.trace_names.

A row has a rule, what defines it and what exercises it; how it names things is said at the head of
docs/TRACE.md. A name must be defined in its file, and a case, edit or test must be there. A proof is
named by its function, which must stand there with a contract, or with answers in proofs/: the prover
needs no file where it finds a proof itself. Every row names something in both columns or says
`to come`; every case and every edit of the gate stands in some row.
"""

import re

from tests import ending

from . import doc_names, names

TRACE = names.ROOT / "docs" / "TRACE.md"
WORD = re.compile(r"\b(theorem|proof|code|case|edit|test|example)\b|;|`([^`]+)`")
REFERENCE = re.compile(r"(\w+)/([\w/]+): (.+)")
FOLDERS = {"definition": ("specs", "antt"), "example": ("specs", "antt"),
           "theorem": ("proofs", "antt"), "code": ("src", "rt")}
TO_COME = "to come"
COMMANDS = ("rt ci",)


def named_in_file(word, token):
    found = REFERENCE.fullmatch(token)
    if not found:
        return [f"`{token}` is not of the form `crate/File: name`"]
    folder, suffix = FOLDERS[word]
    path = names.ROOT / "crates" / found.group(1) / folder / f"{found.group(2)}.{suffix}"
    return names.missing_names(path, found.group(3).split(", "))


def proof_there(token):
    crate, _, place = token.partition("/")
    return [] if names.is_proved(crate, place) else [f"there is no proof `{token}`"]


def there(what, token, found):
    return [] if found else [f"there is no {what} `{token}`"]


def check(word, token):
    """The faults of one name."""
    if word in FOLDERS:
        return named_in_file(word, token)
    if word == "proof":
        return proof_there(token)
    if word == "case":
        return there("case", token, token in names.cases())
    if word == "edit":
        return there("edit", token, token in names.edits())
    return there("file", token, token in COMMANDS or names.path_of(token))


def cell_names(cell, usual):
    """(word, token) for each name of a cell; a word holds up to the next word or semicolon."""
    word = usual
    for found in WORD.finditer(cell):
        if found.group(2) is None:
            word = found.group(1) or usual
        else:
            token = found.group(2)
            yield "file" if word == usual and names.path_of(token) else word, token


def rows():
    """Line number and cells of each row of the tables."""
    for number, line in enumerate(TRACE.read_text().splitlines(), 1):
        if line.startswith("| ") and not re.match(r"\| (Rule|Demand) \|", line):
            yield number, [cell.strip() for cell in line.strip("|").split(" | ")]


def main():
    faults, used, count, coming = [], {"case": set(), "edit": set()}, 0, 0
    for number, cells in rows():
        count += 1
        if len(cells) != 3:
            faults.append(f"TRACE.md, line {number}: {len(cells)} columns, not 3")
            continue
        coming += TO_COME in cells[1:]
        for cell, usual in zip(cells[1:], ("definition", "file")):
            found = list(cell_names(cell, usual))
            if not found and cell.strip("| ") != TO_COME:
                faults.append(f"TRACE.md, line {number}: a column names nothing: '{cell}'")
            for word, token in found:
                faults += [f"TRACE.md, line {number}: {fault}" for fault in check(word, token)]
                used.get(word, set()).add(token)
    for what, there_are in (("case", names.cases()), ("edit", names.gate_edits())):
        faults += [f"TRACE.md: no row names the {what} `{name}`"
                   for name in sorted(there_are - used[what])]
    faults += doc_names.faults()
    ending.tell(f"{count} rows, {coming} of them to come", faults)


if __name__ == "__main__":
    main()
