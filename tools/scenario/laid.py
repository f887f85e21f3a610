"""The bench input of a scenario, in a file that is gone afterwards."""

import contextlib
import tempfile

from .source import UsageFault


@contextlib.contextmanager
def laid(lines, name, option):
    """The octets, whole or not at all, and how many events they hold; the option is the one that wants a single input."""
    with tempfile.NamedTemporaryFile() as octets:
        settings = events = 0
        for line in lines:
            settings += line.settings is not None
            events += len(line.events)
            octets.write(line.settings.record if line.settings else b"")
            octets.writelines(event.record for event in line.events)
        if settings > 1:
            raise UsageFault(f"{name}: settings are given {settings} times, a bench input has them once: "
                             f"{option} is for a scenario with one settings line")
        octets.flush()
        octets.seek(0)
        yield octets, events
