"""Scenarios read, laid out and told from a text, as the command does it with a file."""

import io

from tools.scenario import show, source, stream


def lines_of(text, name="test"):
    return list(source.lines(io.StringIO(text), name))


def inputs(lines):
    """What the bench program takes: for each settings line the octets from there to the next, and how
    many events they hold."""
    found = []
    for line in lines:
        if line.settings:
            found.append((line.settings.record, 0))
        if line.events:
            octets, count = found[-1]
            found[-1] = octets + b"".join(event.record for event in line.events), count + len(line.events)
    return found


def told(lines, changes, with_table=False):
    """The transcript, by a program with the argument that makes it print changes."""
    teller = show.Teller(with_table)
    return "".join(teller.line(*one) for one in stream.one_by_one(iter(lines), changes)) + teller.ending()


def plain_lines(lines, command):
    return "".join(stream.plain(iter(lines), command))
