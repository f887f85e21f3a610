"""The words for any frame and primitive beside an arrow."""

from tools import bench_input as bench
from tools.scenario import frames, primitives

SHOWN = (("status", "status {}"), ("comeback", "comeback {} TU"), ("reason", "reason {}"), ("id", "identifier {}"),
         ("category", "category {}"))


def frame_label(octets):
    """A frame by its name and the fields that matter."""
    found = frames.decode(octets)
    if found is None:
        return f"octets {octets[:4].hex(' ')} .., {len(octets)} in all"
    row, fields = found
    parts = [row.about.partition(";")[0].partition(", no data")[0]]
    for name, form in SHOWN:
        if fields.get(name) is not None and not (name == "status" and row.word == "auth-request"):
            parts.append(form.format(fields[name]))
    if fields.get("aid"):
        parts.append(f"AID {fields['aid']}")
    if fields["version"]:
        parts.append(f"version {fields['version']}")
    if fields["flags"] & bench.PROTECTED:
        parts.append("protected")
    return ", ".join(parts)


def primitive_label(event, say):
    """A primitive by its name in the rules, with its peer and its code."""
    if event.kind == "links":
        return f"links of {say(event.peer)}, {event.record[11]}"
    row = primitives.BY_NUMBER.get(event.primitive)
    name = row.name if row else f"primitive {event.primitive}"
    code = int.from_bytes(event.record[-2:], "little")
    if row and row.word == "report":
        return f"transmit report, {say(event.peer)}, " + {0: "not acknowledged", 1: "acknowledged"}.get(code, f"code {code}")
    shown = f", {row.code if row else 'code'} {code}" if code or row and row.code != "code" else ""
    return f"{name}, {say(event.peer)}{shown}"
