"""The names in README.md and docs/: files, links, names beside their file, promised functions."""

import re

from . import names

DOCUMENTS = ("README.md", "docs/DECISIONS.md", "docs/FAULTS.md", "docs/PROMISES.md",
             "docs/READING.md", "docs/TRACE.md")
LINK = re.compile(r"\]\((?!http)([^)#\s]*)(?:#([^)\s]+))?\)")
HEADING = re.compile(r"^#+ (.+)$", re.MULTILINE)
# A path, and perhaps a name of it: `crates/peer/specs/Filter.antt: passes_of`.
PLACE = re.compile(r"((?:crates/)?(?:octets|peer|table|table_c|sums|rival|bench)/(?:specs|proofs|src)/"
                   r"[\w/]+\.(?:antt|rt))(?:: ([\w-]+))?")
BETWEEN = (", ", " and ", ": ", ",\n", " to ")
WORD = re.compile(r"[\w-]+")
LIBRARY = ("get_or",)
FILE = re.compile(r"[\w./-]+/[\w.-]+\.(?:antt|rt|py|txt|md|svg|c|h)")
CAMEL = re.compile(r"[a-z]+[a-z0-9]*(?:[A-Z][A-Za-z0-9]*)+")
SNAKE = re.compile(r"[a-z]+(?:_[a-z0-9]+)+")
KEBAB = re.compile(r"[a-z]+(?:-[a-z0-9]+)+")
MINUTES = re.compile(r"\| (`.*`) \| (\d+) \|")
IN_ALL = re.compile(r"In all: (\d+) minutes")
MODULE = re.compile(r"\| \*\*`([\w:]+)`\*\* \| ([^|]*)\|")
FUNCTION = re.compile(r"\| `(?:\w+::)?(\w+)\(")
GIVES = re.compile(r"(?:gives|result|buffer|is) `(\w+)")
FAULT = re.compile(r"^\| `(\w+/\w+)` \|[^|]*\| (gate|faults) \|", re.MULTILINE)
SPEC = re.compile(r"`(?:(\w+)/)?specs/(\w+)\.antt`")


def beside_a_file(text):
    """Names that stand behind a path, one after the other: each must be defined in that file."""
    path, end = None, -1
    for token in names.TOKEN.finditer(text):
        found = PLACE.fullmatch(token.group(1))
        if found:
            path = names.path_of(found.group(1))
            if path is None:
                yield f"there is no {found.group(1)}"
            elif found.group(2):
                yield from names.missing_names(path, [found.group(2)])
        elif path and text[end:token.start()] in BETWEEN and WORD.fullmatch(token.group(1)):
            yield from names.missing_names(path, [token.group(1)])
        else:
            path = None
        end = token.end()


def anchors(text):
    """The headings of a document as links name them."""
    return {re.sub(r"[^\w -]", "", heading).lower().replace(" ", "-")
            for heading in HEADING.findall(text)}


def leads_somewhere(text):
    """Links and paths lead to a file, and a link into a document to one of its headings."""
    for target, anchor in LINK.findall(text):
        found = next((path for path in (names.ROOT / target, names.ROOT / "docs" / target)
                      if path.is_file()), None)
        if target and not found:
            yield f"the link to {target} leads nowhere"
        elif anchor and anchor not in anchors(names.text_of(found) if found else text):
            yield f"the link to {target}#{anchor} leads to no heading"
    for token in names.TOKEN.findall(text):
        if FILE.fullmatch(token) and not token.startswith(("specs/", "proofs/", "src/")) \
                and names.path_of(token) is None:
            yield f"there is no {token}"


def is_somewhere(text):
    """What is named like a definition, a theorem, or a function, an edit or a case, is one."""
    for token in names.TOKEN.findall(text):
        if token in LIBRARY:
            continue
        if CAMEL.fullmatch(token):
            if not any(names.defined_somewhere(token, folder) for folder in ("specs", "proofs")):
                yield f"no definition is called {token}"
        elif KEBAB.fullmatch(token):
            if not any(names.defined_somewhere(token, folder) for folder in ("proofs", "specs")):
                yield f"no theorem is called {token}"
        elif SNAKE.fullmatch(token) and not (
                any(names.defined_somewhere(token, folder) for folder in ("src", "specs", "proofs"))
                or token in names.cases() or token in names.CRATES
                or any(edit.endswith(f"/{token}") for edit in names.edits())):
            yield f"no function, definition, theorem, edit or case is called {token}"


def promised(text):
    """The tables of docs/PROMISES.md: a function stands in its module, what it gives is defined in
    a file named at the module's head or in its own row, and its faults are the crate's edits."""
    crate, module, heads = None, None, []
    for line in text.splitlines():
        section = re.match(r"## `(\w+)`", line)
        if line.startswith("## "):
            crate, module = section and section.group(1), None
        head = MODULE.match(line)
        if head and crate:
            module, heads = head.group(1), SPEC.findall(head.group(2))
        elif module and FUNCTION.match(line):
            yield from function_row(crate, module, heads, line)


def function_row(crate, module, heads, line):
    code = names.ROOT / "crates" / crate / "src" / (module.replace("::", "/") + ".rt")
    yield from names.missing_names(code, [FUNCTION.match(line).group(1)])
    specs = [names.ROOT / "crates" / (other or crate) / "specs" / f"{name}.antt"
             for other, name in heads + SPEC.findall(line)]
    cells = line.split(" | ")
    for name in GIVES.findall(cells[1]):
        if not any(path.is_file() and names.defines(path, name) for path in specs):
            yield f"`{name}` of {module} is not in {', '.join(map(names.shown, specs))}"
    for edit in names.TOKEN.findall(cells[3]) if len(cells) > 3 else ():
        if f"{crate}/{edit}" not in names.edits():
            yield f"{crate} has no edit {edit}"


def every_fault(text):
    """docs/FAULTS.md: every edit has one row, which says where it stands."""
    rows = [(name, place == "gate") for name, place in FAULT.findall(text)]
    yield from (f"`{name}` has two rows" for name in {name for name, _ in rows}
                if sum(other == name for other, _ in rows) > 1)
    there = {(name, True) for name in names.gate_edits()}
    there |= {(name, False) for name in names.other_edits()}
    for name, gate in sorted(there ^ set(rows)):
        what = "is an edit without such a row" if (name, gate) in there else "is no such edit"
        yield f"`{name}`, {'the gate' if gate else 'tests/faults'}: {what}"


def reading_order(text):
    """docs/READING.md: every file of definitions has its place, and the minutes add up."""
    told, total = set(), 0
    for cell, minutes in MINUTES.findall(text):
        told |= set(names.TOKEN.findall(cell))
        total += int(minutes)
    for path in names.files("specs", ".antt"):
        if path.stem != "Lib" and names.shown(path)[len("crates/"):] not in told:
            yield f"{names.shown(path)} has no place in the order of reading"
    said = IN_ALL.search(text)
    if not said or int(said.group(1)) != total:
        yield f"the minutes add up to {total}; 'In all' says {said.group(1) if said else 'nothing'}"


FOR_ALL = (beside_a_file, leads_somewhere)
OWN_CHECKS = {"README.md": (), "docs/FAULTS.md": (every_fault,),
              "docs/PROMISES.md": (is_somewhere, promised),
              "docs/READING.md": (is_somewhere, reading_order)}


def faults():
    found = []
    for document in DOCUMENTS:
        path = names.ROOT / document
        if not path.is_file():
            found.append(f"there is no {document}")
            continue
        text = path.read_text()
        for check in FOR_ALL + OWN_CHECKS.get(document, (is_somewhere,)):
            found += [f"{path.name}: {fault}" for fault in check(text)]
    return found
