"""A program that takes files by name, run on octets: they are written to files of their own, gone afterwards."""

import os
import pathlib
import subprocess
import tempfile

SECONDS = 120


def run(command, word, *contents, **started):
    """The command with a word and the names of files with these contents, started as `started` has it; how it
    ended, as subprocess has it."""
    with tempfile.TemporaryDirectory() as folder:
        names = [os.path.join(folder, str(number)) for number in range(1, len(contents) + 1)]
        for name, octets in zip(names, contents):
            pathlib.Path(name).write_bytes(octets)
        return subprocess.run(command + [word, *names], capture_output=True, timeout=SECONDS, **started)
