"""A rival's log of answers beside ours: where it differs first, in words. That it does is found by the program's own
check; what each side answered there, and the rule that decides ours, is told here."""

import collections
import contextlib
import os
import pathlib
import re
import shutil
import stat
import subprocess
import sys
import tempfile

from tools.handed import handed

from . import codes, source, stream, words
from .answers import LINE, WHY, BenchFault, read
from .because import because
from .laid import laid
from .show import Teller
from .source import UsageFault
from .values import visible

# The commands that check a log, and that tell of an input what each event changed.
Programs = collections.namedtuple("Programs", "check changes")
# The fields of a line, as the check names them, and for a reader.
FIELDS = {"number": "the event's number", "refusal": "the refusal", "verdict": "the verdict", "notice": "what our side is told",
          "code": "the code of what our side is told", "written": "how many octets are written",
          "ds": "the word to the distribution system", "state": "the state of the peer after it", "form": "the form of the line"}
FOUND = re.compile(r"right|(differs) (\d+) (" + "|".join(FIELDS) + r")|(short|long) (\d+)")
VERDICTS = {"-": "none", "A": "admitted", "D": "discarded"}
DS = {"-": "none", "J": "joined", "L": "left"}
# So much of a line is looked at; our own are far shorter. So many signs of it are shown.
LONGEST, SHOWN = 1 << 12, 100
MARK, BYTE_ORDER = b"\x0b\x03", b"\xef\xbb\xbf"
A_LINE = ("no line of answers: event number, refusal, verdict, notice, its code, octets written, word to the distribution "
          "system, state")


def line_of(log, number):
    """The log's line of an event, with its end; those before it are ours, so they are short."""
    with open(log, "rb") as octets:
        for _ in range(number - 1):
            octets.readline()
        return octets.readline(LONGEST)


def shown(line):
    """A line of the log, cut, and with no sign that a terminal acts on."""
    text = visible(line.rstrip(b"\n").decode("utf-8", "backslashreplace")).replace("\t", "\\t")
    return text[:SHOWN] + (".." if len(text) > SHOWN else "")


def hint(line):
    """What is wrong with a line that is not even the form of an answer; '' where nothing is."""
    text = line.decode("ascii", "replace").rstrip("\r\n")
    number, _, fields = text.partition(" ")
    if line.startswith(MARK):
        return "it begins as a bench input does: octets, and no answers"
    if line.startswith(BYTE_ORDER):
        return "it begins with a byte order mark, which no answer has"
    if line.startswith(b"  "):
        return "it has the lines of a trace, or of changes: the plain lines alone are wanted"
    if WHY.fullmatch(fields):
        return "it has reasons, as 'bench why' gives them: the answers are wanted"
    if LINE.match(fields) and number.isdigit() and fields.count(" ") > 6:
        return "it has more behind the eight fields"
    if not LINE.fullmatch(fields) or not number.isdigit():
        return f"that is {A_LINE}"
    if line.endswith(b"\r\n"):
        return "its lines end in CR LF, and those of the bench program in LF alone"
    return "" if line.endswith(b"\n") else "its last line has no end"


def value(field, text):
    """One field of a line with its meaning, as far as it has one."""
    number = int(text) if text.isdigit() and len(text) < 9 else None
    meaning = {"refusal": lambda: "none" if number == 0 else codes.ALL_REFUSALS.get(number),
               "verdict": lambda: VERDICTS.get(text), "ds": lambda: DS.get(text),
               "notice": lambda: "nothing" if number == 0 else codes.NOTICES.get(number, (None,))[0],
               "state": lambda: "no peer" if number == 0 else codes.STATES.get(number)}.get(field, lambda: None)()
    return f"{text} ({meaning})" if meaning else text


def answer_words(line):
    """What a line of the rival says, in a few words."""
    refusal, verdict, notice, code, written, ds, state = line.rstrip().split(" ")[1:]
    parts = [f"refused {refusal}: {codes.ALL_REFUSALS.get(int(refusal), 'no refusal of the rules')}" if int(refusal) else "",
             VERDICTS[verdict] if verdict != "-" else "",
             f"tells our side {value('notice', notice)}, code {code}" if int(notice) else "",
             f"writes {written} octets" if int(written) else "",
             f"tells the distribution system: {DS[ds]}" if ds != "-" else "",
             f"the peer is in {words.state(int(state))}" if int(state) else ""]
    return "; ".join(filter(None, parts)) or "nothing is refused, told or written"


def rule(one, settings, say):
    """The rule that decides our answer, as the program names it, and what it is about."""
    event, answer, before = one
    why = because(event, answer, before, settings, say)
    return f"{answer.reason} {answer.value}: {why or 'no rule refuses the event or stops it, so it is done as it asks'}"


def event_words(lines, programs, number):
    """The words of our own answer to an event: the scenario's line, the plain line, what it did, and the rule."""
    teller = Teller()
    for line, turns in stream.one_by_one(lines, programs.changes):
        teller.begin(line)
        for turn in turns:
            if turn[1] == number:
                event, answer, before = one = read(turn)
                say = teller.names.say
                whose = f" (for {say(event.peer)})" if len(turns) > 1 and event.peer else ""
                plain = " ".join(str(field) for field in answer[:8])
                did = words.tell(event, answer, before, teller.settings, say)
                return line, visible(line.text) + whose, plain, did, rule(one, teller.settings, say)
    raise BenchFault(f"the bench program has no answer to event {number}")


def told_event(text, name, programs, log, number, field):
    """The lines that tell one event, and of its field what either side has."""
    text.seek(0)
    line, said, plain, did, decided = event_words(source.lines(text, name), programs, number)
    told = [f"{name}:{line.at}: {said}", "", f"ours:    {plain}", *(f"         {words_}" for words_ in did),
            f"rule:    {decided}"]
    if not field:
        return told, ""
    theirs = line_of(log, number)
    wrong = hint(theirs)
    told += [f"theirs:  {shown(theirs)}", "         " + (wrong or answer_words(theirs.decode("ascii")))]
    place = list(FIELDS).index(field)
    pieces = shown(theirs).split(" ")
    if field == "form" or wrong:
        return told, ""
    return told, f": ours is {value(field, plain.split(' ')[place])}, theirs {value(field, pieces[place])}"


def said_of(found, events, text, name, programs, log, log_name):
    """What is told of the log, by what the check found."""
    if found[0] == "right":
        return [f"{log_name}: right: each of its {events} lines is the answer that the rules give"]
    if found[1]:
        told, differs = told_event(text, name, programs, log, int(found[2]), found[3])
        return [f"{log_name}: differs first at event {found[2]} of {events}, in {FIELDS[found[3]]}{differs}", "", *told]
    at = int(found[5])
    if found[4] == "long":
        return [f"{log_name}: longer than the {events} events: behind the last answer it has '{shown(line_of(log, at + 1))}'"]
    what = "empty" if os.path.getsize(log) == 0 else f"too short: it ends with event {at} of {events}"
    return [f"{log_name}: {what}; this event has no answer:", "", *told_event(text, name, programs, log, at + 1, "")[0]]


def check(command, octets, log):
    """What `check` says of a log; a fault where the program does not say it."""
    try:
        with handed([octets, log]) as (names, ends):
            done = subprocess.run([*command, *names], capture_output=True, pass_fds=ends, timeout=stream.SECONDS)
    except OSError as fault:
        raise BenchFault(f"{command[0]} can't be run: {fault.strerror}") from None
    except subprocess.TimeoutExpired:
        raise BenchFault(f"{command[0]} had not answered after {stream.SECONDS} s") from None
    found = FOUND.fullmatch(done.stdout.decode("ascii", "replace").rstrip("\n"))
    if not found:
        said = done.stderr[:500].decode("utf-8", "replace").strip()
        raise BenchFault(f"the bench program did not check the log: {said or f'it ended with status {done.returncode}'}")
    return found


@contextlib.contextmanager
def named(file, other):
    """The name of a file that can be read twice: its own, or that of a copy of standard input."""
    if file != "-":
        try:
            with open(file, "rb") as found:
                regular = stat.S_ISREG(os.fstat(found.fileno()).st_mode)
        except OSError as fault:
            raise UsageFault(f"{visible(file)}: {fault.strerror}") from None
        if not regular:
            raise UsageFault(f"{visible(file)}: not a file that can be read twice: '-' takes standard input")
        if other != "-" and os.path.exists(other) and os.path.samefile(file, other):
            raise UsageFault(f"{visible(file)} is given as scenario and as log: the log has the rival's answers, a line an event")
        yield file
        return
    if other == "-" or sys.stdin is None:
        raise UsageFault("standard input is " + ("closed" if sys.stdin is None else "the scenario or the log, not both"))
    with tempfile.NamedTemporaryFile() as copy:
        shutil.copyfileobj(sys.stdin.buffer, copy)
        copy.flush()
        yield copy.name


def compare(file, log, programs):
    """The lines to print, and whether the log is right."""
    name, log_name = ("standard input" if one == "-" else visible(one) for one in (file, log))
    with named(file, log) as scenario, named(log, file) as logged:
        with open(scenario, encoding="utf-8-sig", newline="\n") as text:
            with laid(source.lines(text, name), name, "--rival") as (octets, events):
                found = check(programs.check, octets.name, str(pathlib.Path(logged).resolve()))
                return said_of(found, events, text, name, programs, logged, log_name), found[0] == "right"
