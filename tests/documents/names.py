"""Where a name of the documents is defined: specs, proofs, code, stored cases, edits; and whether
the prover has something to prove of a function."""

import functools
import pathlib
import re

ROOT = pathlib.Path(__file__).resolve().parents[2]
CRATES = ("octets", "peer", "table", "table_c", "sums", "rival", "bench")
TOKEN = re.compile(r"`([^`\n]+)`")
SIGNATURE = r"^\s*(?:(?:abbrev|unfoldable|pub)\s+)*(?:(?:record|data)\s+{0}(?=[\s(]|$)|{0}\s+:)"
ITEM = r"\b(?:fn|struct|enum|trait|const)\s+{0}\b"
# A function up to its body, at the line's beginning or, a method, indented; a type's `impl`, or a trait.
HEAD = r"^{0}(?:[a-z(][^\n]*\s)?fn\s+{1}\b(?:(?!\bfn\b)[^{{])*"
METHODS = r"^(?:impl|(?:pub(?:\(crate\))?\s+)?trait)\s+{0}\b[^\n{{]*\{{.*?^\}}"
ANSWERS = ("Answers.antt", "Invariants.antt", "Proof.antt")


@functools.lru_cache(maxsize=None)
def text_of(path):
    return path.read_text()


def defines(path, name):
    """Whether the file has a signature of this name, or in code an item or a variant's type."""
    form = ITEM if path.suffix == ".rt" else SIGNATURE
    return re.search(form.format(re.escape(name)), text_of(path), re.MULTILINE) is not None


def shown(path):
    return str(path.relative_to(ROOT))


def missing_names(path, names):
    """The faults of a reference: the file is not there, or does not define a name."""
    if not path.is_file():
        return [f"there is no {shown(path)}"]
    return [f"{shown(path)} does not define {name}" for name in names if not defines(path, name)]


def head_of(crate, place):
    """The head, clauses too, of the function `module/../function` or `module/../Type/function`."""
    *modules, function = place.split("/")
    code, owner = ROOT / "crates" / crate / "src", None
    if modules and modules[-1][:1].isupper():
        owner = modules.pop()
    paths = [code / f"{'/'.join(modules)}.rt"] if modules else [code / "lib.rt", code / "main.rt"]
    for text in (text_of(path) for path in paths if path.is_file()):
        parts = [text]
        if owner:
            methods = METHODS.format(re.escape(owner))
            parts = re.findall(methods, text, re.MULTILINE | re.DOTALL)
        for part in parts:
            head = HEAD.format(r"[ \t]+" if owner else "", re.escape(function))
            found = re.search(head, part, re.MULTILINE)
            if found:
                return found.group(0)
    return None


def is_proved(crate, place):
    """Whether the function is there, with a contract or with answers of its own in proofs/."""
    head, proof = head_of(crate, place), ROOT / "crates" / crate / "proofs" / place
    return head is not None and (re.search(r"\b(?:requires|ensures)\b", head) is not None
                                 or any((proof / name).is_file() for name in ANSWERS))


@functools.lru_cache(maxsize=None)
def files(folder, suffix):
    return tuple(sorted(path for crate in CRATES
                        for path in (ROOT / "crates" / crate / folder).rglob(f"*{suffix}")))


@functools.lru_cache(maxsize=None)
def defined_somewhere(name, folder):
    suffix = ".rt" if folder == "src" else ".antt"
    return any(defines(path, name) for path in files(folder, suffix))


@functools.lru_cache(maxsize=None)
def gate_edits():
    """Each edit that the gate tries, as CRATE/NAME."""
    return {f"{crate}/{path.stem}" for crate in CRATES
            for path in (ROOT / "crates" / crate / "must-fail").glob("*.edit")}


@functools.lru_cache(maxsize=None)
def other_edits():
    """Each edit that tests/faults/try alone tries, as CRATE/NAME."""
    return {f"{path.parent.name}/{path.stem}"
            for path in (ROOT / "tests" / "faults").glob("*/*.edit")}


def edits():
    return gate_edits() | other_edits()


@functools.lru_cache(maxsize=None)
def cases():
    return {path.name for path in (ROOT / "tests" / "cases").iterdir() if path.is_dir()}


def path_of(token):
    """The file that a path in a document means: from the root, or from `crates`."""
    return next((path for path in (ROOT / token, ROOT / "crates" / token) if path.exists()), None)
