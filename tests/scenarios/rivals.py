"""Another maker's logs, told in words: python3 -m tests.scenarios.rivals --program CMD.

For each examples/rivals/NAME.log what is told is NAME.out, by this program. Then logs that are none: other text, octets,
lines that end in CR LF, none at all, a folder, the scenario itself. Each gets an answer or a line that says what is wrong.
"""

import argparse
import os
import pathlib
import shlex
import subprocess
import tempfile
import textwrap

from tests import ending
from tests.cases import difference
from tools.scenario import rival
from tools.scenario.source import UsageFault

ROOT = pathlib.Path(__file__).resolve().parents[2]
STORED = "examples/rivals"
# The scenario that a stored log answers.
OF = {"joined_too_early": "nine_steps", "comeback_without_end": "comeback", "right": "nine_steps"}
NINE = "examples/nine_steps.scenario"
RIGHT = (ROOT / STORED / "right.log").read_bytes()
LINES = RIGHT.splitlines(keepends=True)
NO_LINE = f"         that is {rival.A_LINE}"
# Logs of the nine steps, how what is told of them begins, and its last line.
BAD = {
    b"": ("L: empty; this event has no answer:", "rule:    none 0: no rule refuses the event or stops it, so it is done as it asks"),
    b"hello\n": ("L: differs first at event 1 of 9, in the event's number", NO_LINE),
    bytes(5000): ("L: differs first at event 1 of 9, in the event's number", NO_LINE),
    bytes(range(256)) * 40: ("L: differs first at event 1 of 9, in the event's number", NO_LINE),
    RIGHT.replace(b"\n", b"\r\n"): ("L: differs first at event 1 of 9, in the state of the peer after it",
                                    "         its lines end in CR LF, and those of the bench program in LF alone"),
    b"\xef\xbb\xbf" + RIGHT: ("L: differs first at event 1 of 9, in the event's number",
                              "         it begins with a byte order mark, which no answer has"),
    (ROOT / "crates/bench/stdin").read_bytes(): ("L: differs first at event 1 of 9, in the event's number",
                                                 "         it begins as a bench input does: octets, and no answers"),
    (ROOT / NINE).read_bytes(): ("L: differs first at event 1 of 9, in the event's number", NO_LINE),
    b"1 none 0\n": ("L: differs first at event 1 of 9, in the refusal",
                    "         it has reasons, as 'bench why' gives them: the answers are wanted"),
    **{LINES[0] + line: ("L: differs first at event 2 of 9, in the event's number",
                         "         it has the lines of a trace, or of changes: the plain lines alone are wanted")
       for line in (b"  place 0 020000000101 1 1 0 0\n", b"  because nothing-to-do 0\n", b"  free 0\n")},
    RIGHT[:-1]: ("L: differs first at event 9 of 9, in the form of the line", "         its last line has no end"),
    LINES[0][:-1] + b" 7\n": ("L: differs first at event 1 of 9, in the form of the line",
                              "         it has more behind the eight fields"),
    LINES[0] + b"2 0 - 0 0 \x1b[2J - 2\n": ("L: differs first at event 2 of 9, in how many octets are written", NO_LINE),
    LINES[0] + LINES[2]: ("L: differs first at event 2 of 9, in the event's number: ours is 2, theirs 3",
                          "         admitted; tells our side 5 (ASSOCIATE.indication), code 0; the peer is in State 2 (authenticated)"),
    b"".join(LINES[:4]) + b"5 0 A 0 0 0 - 2\n": (
        "L: differs first at event 5 of 9, in the verdict: ours is D (discarded), theirs A (admitted)",
        "         admitted; the peer is in State 2 (authenticated)"),
    b"1 99999 D 77 1 9 L 9\n": ("L: differs first at event 1 of 9, in the refusal: ours is 0 (none), theirs 99999",
                                "         refused 99999: no refusal of the rules; discarded; tells our side 77, code 1; writes 9 octets; "
                                "tells the distribution system: left; the peer is in State 9 (not in the rules)"),
    b"".join(LINES[:3]): ("L: too short: it ends with event 3 of 9; this event has no answer:",
                          "rule:    none 0: no rule refuses the event or stops it, so it is done as it asks"),
    RIGHT + b"stop": ("L: longer than the 9 events: behind the last answer it has 'stop'",) * 2,
    RIGHT: ("L: right: each of its 9 lines is the answer that the rules give",) * 2,
}


def told(scenario, log, programs):
    try:
        return "\n".join(rival.compare(scenario, log, programs)[0]) + "\n"
    except UsageFault as fault:
        return f"fault: {fault}\n"


def stored(programs):
    """What is told of each stored log."""
    faults, logs = [], sorted(path.stem for path in (ROOT / STORED).glob("*.log"))
    for name in logs:
        wanted = (ROOT / STORED / f"{name}.out").read_text()
        fault = difference(wanted, told(f"examples/{OF[name]}.scenario", f"{STORED}/{name}.log", programs))
        faults += [f"{name}: {fault}"] if fault else []
    return faults + ([] if logs == sorted(OF) else [f"logs: {logs}"])


def odd_logs(programs):
    """Logs that are none, or differ where no stored one does; nothing that is told has a sign that a terminal acts on."""
    faults = []
    with tempfile.TemporaryDirectory() as folder:
        log = os.path.join(folder, "log")
        for octets, (first, last) in BAD.items():
            pathlib.Path(log).write_bytes(octets)
            got = told(NINE, log, programs).replace(log, "L", 1).rstrip("\n").split("\n")
            if (got[0], got[-1]) != (first, last) or not all(line.isprintable() for line in got):
                faults.append(f"{octets[:40]!r}: {got[0]} .. {got[-1]}")
        link = os.path.join(folder, "link")
        os.symlink(ROOT / NINE, link)
        pairs = [(folder, f"fault: {folder}: Is a directory\n"), (log + "x", f"fault: {log}x: No such file or directory\n"),
                 ("/dev/zero", "fault: /dev/zero: not a file that can be read twice: '-' takes standard input\n"),
                 (link, f"fault: {NINE} is given as scenario and as log: the log has the rival's answers, a line an event\n")]
        faults += [got for given, wanted in pairs if (got := told(NINE, given, programs)) != wanted]
    got = told("examples/editions.scenario", f"{STORED}/right.log", programs)
    return faults + ([] if "--rival is for a scenario with one settings line" in got else [got])


def readme():
    """The README shows what is told of the first of them."""
    text = textwrap.dedent((ROOT / STORED / "joined_too_early.out").read_text().partition("ours:")[2])
    shown = textwrap.indent("ours:" + text.rstrip("\n"), "    ")
    return [] if shown in (ROOT / "README.md").read_text() else ["README.md shows something else of joined_too_early"]


def command():
    """Wrong uses of the option, each with its one line and status 1."""
    pairs = [(["--rival"], "--rival needs a value behind it"), (["--rival", "a"], "no files given"),
             (["--rival", "-", "-"], "standard input is the scenario or the log, not both"),
             (["--rival", "a", "--lines", "b"], "--rival and --lines do not go together"),
             (["--bench", "/no/such", "--rival", f"{STORED}/right.log", NINE], "/no/such can't be run: No such file or directory"),
             (["--bench", "true", "--rival", f"{STORED}/right.log", NINE],
              "the bench program did not check the log: it ended with status 0")]
    faults = []
    for words, said in pairs:
        done = subprocess.run(["./scenario", *words], capture_output=True, text=True, stdin=subprocess.DEVNULL)
        if done.returncode != 1 or done.stdout or not done.stderr.startswith(f"scenario: {said}") or done.stderr.count("\n") != 1:
            faults.append(str(done))
    return faults


def main():
    parser = argparse.ArgumentParser(description=__doc__.splitlines()[0])
    parser.add_argument("--program", required=True)
    given = parser.parse_args()
    program = shlex.split(given.program)
    os.chdir(ROOT)
    programs = rival.Programs(program + ["check"], program + ["changes"])
    faults = stored(programs) + odd_logs(programs) + readme() + command()
    ending.tell(f"{len(OF)} stored logs, {len(BAD)} odd ones", faults)


if __name__ == "__main__":
    main()
