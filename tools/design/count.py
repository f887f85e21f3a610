#!/usr/bin/env python3
"""Counts, in crates/*/src and crates/*/proofs, the places that docs/DESIGN-PASS.md speaks of: a line for each kind.

usage: python3 tools/design/count.py [--list KIND]
"""

import pathlib
import re
import sys

ROOT = pathlib.Path(__file__).resolve().parents[2]
CRATES = ["octets", "peer", "table", "table_c", "sums", "rival", "bench"]
COPIED = re.compile(r"^\s+(\w+): \w+\.\1,$", re.M)
FUNCTION = re.compile(r"^\s*(?:pub(?:\(crate\))? )?(?:extern \"C\" )?fn (\w+)")


def sources(crate):
    return sorted((ROOT / "crates" / crate / "src").rglob("*.rt"))


def functions(text):
    """Name, head and body of each function, by the indentation that rt fmt gives."""
    lines = text.split("\n")
    at = 0
    while at < len(lines):
        found = FUNCTION.match(lines[at])
        if found:
            pad = re.match(r"\s*", lines[at]).group(0)
            end = at
            while end < len(lines) and not (lines[end].startswith(pad + "}") or lines[end] == pad + "}"):
                end += 1
            block = lines[at : end + 1]
            opens = [i for i, line in enumerate(block) if line.endswith("{") and not line.strip().startswith(("requires", "ensures"))]
            cut = opens[0] if opens else 0
            yield found.group(1), "\n".join(block[: cut + 1]), "\n".join(block[cut + 1 :])
            at = end
        at += 1


def structs(text):
    return re.findall(r"\n(?:pub )?struct (\w+)(?:<[^>]*>)? \{\n(.*?)\n\}", text, re.S)


def lines_of(pattern):
    def found(text):
        return [line.strip() for line in text.split("\n") if re.search(pattern, line)]

    return found


def flags(text):
    return [f"{name}.{field}" for name, body in structs(text) for field in re.findall(r"^\s+(?:pub )?(\w+): bool,$", body, re.M)]


def in_functions(test):
    def found(text):
        return [name for name, head, body in functions(text) if test(head, body)]

    return found


def copied(head, body):
    return 2 <= len(COPIED.findall(body))


KINDS = {
    "1 own enums": lines_of(r"^\s*(pub )?enum "),
    "1 flags in a struct": flags,
    "1 constants of number codes": lines_of(r"\bconst [A-Z_0-9]+: u8 "),
    "1 functions that give a u8": in_functions(lambda head, body: "-> u8" in head),
    "3 loops that count by hand": lines_of(r"\bwhile "),
    "4 which variant, arm by arm": in_functions(lambda head, body: 2 <= len(re.findall(r"=> (?:true|false),", body))),
    "4 conversions by number": lines_of(r"fn (kind_number|exchange_number|exchange_of|running_number|query_number|query_of|reason_number|record_of|row_of)\("),
    "4 values copied field by field": in_functions(copied),
    "4 printed octet by octet": lines_of(r"fn put_(tens|field|letter|word|hex\w*)\("),
    "5 of 1,536 octets": lines_of(r"^\s*requires .*length table\.(now|old) ≡ 1536"),
    "5 linked, said of the table": lines_of(r"linked ≡ linked_in"),
    "5 settings beside a record": in_functions(lambda head, body: "s: Settings" in head and "p: Record" in head),
    "5 settings, fit, event, frame": in_functions(lambda head, body: "fit: bool" in head and "e: Event" in head),
    "6 a buffer and where it is filled to": in_functions(lambda head, body: re.search(r"&mut \[u8\],\s*(at|out): usize", head)),
    "6 records with their addresses beside": in_functions(lambda head, body: "[Record; 32]" in head and "addresses" in head),
    "7 a switch on what to print or do": lines_of(r"match (prints|m|mode) \{"),
    "an empty branch": lines_of(r"\{\} else"),
}


def twins(crate):
    """Names that functions of two modules of a crate have."""
    homes = {}
    for path in sources(crate):
        for name in in_functions(lambda head, body: True)(path.read_text()):
            homes.setdefault(name, set()).add(str(path.relative_to(ROOT)))
    return {name: sorted(paths) for name, paths in homes.items() if 1 < len(paths)}


def main():
    listed = sys.argv[2] if len(sys.argv) == 3 and sys.argv[1] == "--list" else None
    both = {crate: twins(crate) for crate in CRATES}
    if listed == "2 names that two modules have":
        for crate in CRATES:
            for name, paths in sorted(both[crate].items()):
                print(f"{name}: " + ", ".join(paths))
    if not listed:
        print(f"2 names that two modules have: {sum(map(len, both.values()))} (" + ", ".join(f"{c} {len(n)}" for c, n in both.items() if n) + ")")
    for kind, found in KINDS.items():
        counts = {}
        for crate in CRATES:
            places = [(path, name) for path in sources(crate) for name in found(path.read_text())]
            if listed == kind:
                for path, name in places:
                    print(f"{path.relative_to(ROOT)}: {name}")
            if places:
                counts[crate] = len(places)
        if not listed:
            print(f"{kind}: {sum(counts.values())} (" + ", ".join(f"{c} {n}" for c, n in counts.items()) + ")")
    if listed:
        return
    for crate in CRATES:
        files = sorted((ROOT / "crates" / crate / "proofs").rglob("*.antt"))
        answers = [p for p in files if p.name == "Answers.antt"]
        number = sum(len(re.findall(r"^pub \S+ : goal\.", p.read_text(), re.M)) for p in answers)
        lines = sum(len(p.read_text().split("\n")) for p in files)
        print(f"8 {crate}: {number} answers in {len(answers)} files, {lines} lines of proofs")


main()
