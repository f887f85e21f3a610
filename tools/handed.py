"""Files handed to the bench program by name. It opens only names that are text: a file of another name is opened here, and goes by its descriptor."""

import contextlib
import os


def is_text(name):
    try:
        return bool(os.fsencode(name).decode("utf-8")) or not name
    except UnicodeDecodeError:
        return False


@contextlib.contextmanager
def handed(files):
    """A name for each file that the program can open, and the descriptors to start it with. One that can't be opened keeps its name."""
    names, ends = [], []
    with contextlib.ExitStack() as opened:
        for file in files:
            names.append(file)
            if is_text(file):
                continue
            with contextlib.suppress(OSError):
                end = opened.enter_context(open(file, "rb")).fileno()
                ends.append(end)
                names[-1] = f"/dev/fd/{end}"
        yield names, ends
