"""Long scenarios by the command: told as their lines are, up to a fault, and as far as somebody reads."""

import pathlib
import subprocess

from .playing import lines_of, told

COMMAND = [str(pathlib.Path(__file__).resolve().parents[2] / "scenario"), "-"]
OWN = "own=02:00:00:00:00:01"
SECONDS = 60


def text_of(drawn):
    """Settings twice, a name in the middle, remarks, a range and an expectation, with drawn lines between."""
    drawn = list(drawn)
    parts = [f"ap {OWN}\nname s-1..40 = 02:00:00:00:01:01\n", *drawn[:3000],
             "clock 2s\nexpect done # in whole TU\nname s-41 = 02:00:00:00:02:01\n", *drawn[3000:6000],
             f"station {OWN} timeouts=7,300\n# a remark\n\nframe data from=s-1..9\n", *drawn[6000:]]
    return "".join(parts)


def run(text, *command):
    return subprocess.run(command or COMMAND, input=text, capture_output=True, text=True, timeout=SECONDS)


def faults(bench, drawn):
    """What is wrong with a scenario of some thousand drawn lines: whole, with a fault in its last line, and where nobody reads on."""
    text = text_of(drawn)
    lines = lines_of(text)
    whole, wrong, cut = run(text), run(text + "fram\n"), run(text, "sh", "-c", '"$0" - | head -n 1', COMMAND[0])
    said = "".join(f"{line.text}\n" for line in lines[:1])
    found = [] if whole.stdout == told(lines, bench + ["changes"]) and not whole.stderr else [f"told otherwise: {whole.stderr[:300]}"]
    if wrong.returncode != 1 or not wrong.stderr.startswith(f"standard input:{len(lines) + 1}: ") or not whole.stdout.startswith(wrong.stdout):
        found.append(f"a fault in the last line is told so: {wrong.stderr[:300]}")
    return found + ([] if cut.stdout == said and not cut.stderr else [f"read in part: {cut.stdout[:300]}{cut.stderr[:300]}"])
