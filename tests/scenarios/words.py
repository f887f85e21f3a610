"""Tests of the scenario tool's text: its words, round trips of frames, and what it says of faults.

python3 -m tests.scenarios.words: no arguments; the last line is a count. Each fault is played
through the command itself, so that what a person would see is what is compared.
"""

import pathlib
import re
import subprocess
import sys
import tempfile

from tests.comparison import generate
from tools import bench_input as bench
from tools.scenario import answers, codes, expect, frame_words, frames, manual, primitives, read, stream

from . import tried
from .laid_out import (OTHER, OWN, PEER, event, frames_as_laid_out, links_as_laid_out,
                       primitives_by_word_and_number, settings_as_laid_out)
from .playing import lines_of, told
from .wrong import all_wrong

ROOT = pathlib.Path(__file__).resolve().parents[2]
GENERATED = 2000
ADDRESSES = (PEER, OTHER, "ff:ff:ff:ff:ff:ff", "00:00:00:00:00:00")
OCTETS = {"00": b"\0", "3805030000000038": bytes.fromhex("3805030000000038"),
          "38050300": b"\x38\5\3\0", "dd00*200": b"\xdd\0" * 200}


def classes():
    """The proved table of classes, read from the code: type, subtype and class of each that has one."""
    code = (ROOT / "crates/octets/src/class.rt").read_text()
    body = re.search(r"const CLASSES: \[FrameClass; 64\] = \[(.*?)\];", code, re.DOTALL)[1]
    named = re.findall(r"FrameClass::(\w+),", body)
    assert len(named) == 64, "the table of classes has 64 entries"
    numbers = {"One": 1, "Two": 2, "Three": 3}
    return {(at // 16, at % 16, numbers[name]) for at, name in enumerate(named) if name != "None"}


def words_cover_classes():
    """A word for each type and subtype with a class, of that class, and for no other. The table does
    not know a Public Action: it is told by its category."""
    written = {(row.type, row.subtype, row.class_) for row in frame_words.TABLE
               if row.word != "public-action"}
    return [f"not the same in words and classes: {odd}" for odd in sorted(written ^ classes())]


def samples(field):
    """Texts for a field, each with the value that it stands for."""
    if field.kind == "address":
        return {text: bench.address(text) for text in ADDRESSES}
    if field.kind == "octets":
        return OCTETS
    values = {0, 1, field.highest // 2, field.highest}
    if field.name == "flags":
        values = {0, 4, 0xFC}
    return {str(value): value for value in values}


def round_trip(row, field, text, value):
    """What is read back from the octets is the value written, and writes the same octets."""
    needed = [("from", PEER), ("current-ap", OTHER), (field.name, text)]
    given = {name: words for name, words in needed if name in frame_words.fields_of(row)}
    line = " ".join([f"frame {row.word}"] + [f"{name}={words}" for name, words in given.items()])
    octets = event(line).frame
    found = frames.decode(octets)
    if found is None:
        return f"{line}: not read back"
    back, fields = found
    field_value = fields.get(field.name)
    if field.name == "aid-field" and "aid" in fields:
        field_value = fields["aid"] and fields["aid"] | 0xC000
    if field.name == "body" and fields.get("category") is not None:
        field_value = bytes((fields["category"],)) + field_value
    if field.name == "elements" and "comeback" in fields:
        field_value = bench.timeout_interval(fields["comeback"]) + field_value
    if back != row and field.name != "transaction":
        return f"{line}: read back as {back.word}"
    if field_value != value:
        return f"{line}: {field.name} read back as {field_value}"
    if frames.encode(back, fields) != octets:
        return f"{line}: its fields write other octets"
    return None


def frames_round_trip():
    trips = [round_trip(row, frame_words.FIELDS[name], text, value)
             for row in frame_words.TABLE
             for name in frame_words.fields_of(row) if name != "length"
             for text, value in samples(frame_words.FIELDS[name]).items()]
    return [fault for fault in trips if fault]


def generated_frames_round_trip():
    """Frames of the generated walks: what is read from their octets writes the same octets."""
    faults, read_back = [], 0
    for job in [job for walk in generate.WALKS for job in generate.plan(1, GENERATED, walk)]:
        octets = generate.make(job)
        while octets:
            end = bench.HEAD + int.from_bytes(octets[3:5], "little")
            kind, body, octets = octets[2], octets[bench.HEAD:end], octets[end:]
            found = frames.decode(body) if kind == bench.FRAME else None
            read_back += found is not None
            if found and frames.encode(*found) != body:
                faults.append(body.hex())
    return faults + ([] if read_back > GENERATED // 2 else [f"only {read_back} frames read back"])


# What no program may print behind an answer: no octets, no row, the place of another, and one that is free already.
NO_LINES = ("  octets", "  octets 0", "  octets 0g", "  current 02", "  nonsense", " ", "  place", "  place 1",
            "  place 1 02 1 0 0 0", "  place 1 02000000000b 1 0 0", "  place 1 02000000000b 1 0 0 0 0",
            "  place 1 02000000000b 1 0 0 x", "  place 1 02000000000b 1 0 x 0", "  place 1 02000000000b 1 x 0 0",
            "  place 1 02000000000b 1 0 0 " + "9" * 5000,
            "  place x 02000000000b 1 0 0 0", "  place free 0", "  free", "  free 1",
            "  free 32", "  free x", "  free -1", "  free 0 02000000000a 1 0 0 0", "  free " + "9" * 5000)


def odd_answers_are_told():
    """A bench program that prints what it never should, or can't be run, is a fault with a line."""
    line, place = "1 0 - 0 0 0 - 0\n", "  place 0 02000000000a 1 0 0 0\n"
    query, links = "  query 1 1 2 1000\n", "  links 1 020000000101\n"
    odd = "the bench program printed '{}', which is no line of its changes"
    wanted = [("stop\n", odd.format("stop")), (place + line, odd.format(place[:-1])), (line[:-1], odd.format(line[:-1])),
              (line + query, odd.format(query[:-1])), (line + place + query, odd.format(query[:-1])),
              (line + links, odd.format(links[:-1])), (line + place + links, odd.format(links[:-1])),
              (line + place[:-1], odd.format(place[:-1])), (line + place + query[:7], odd.format(query[:7])),
              ("", "the bench program gave 0 answers to 1 events"),
              (line + line, odd.format(line[:-1])), (line + "2" + line[1:], "the bench program gave 2 answers to 1 events")]
    wanted += [(f"{line}{before}{one}\n", odd.format(one)) for before in ("", place) for one in NO_LINES]
    played = lines_of(f"ap own={OWN}\nclock 1\n")
    programs = [(["sh", "-c", 'cat >/dev/null; printf %s "$0"', printed], said) for printed, said in wanted]
    programs += [(["/no/such/program"], "/no/such/program can't be run: No such file or directory"),
                 (["sh", "-c", "echo broken >&2; exit 3"], "the bench program did not run: broken"),
                 (["true"], "the bench program gave 0 answers to 1 events"),
                 (["sh", "-c", 'printf %s "$0"; exec sleep 9', line + place], "sh had not answered after 0.2 s")]
    faults, seconds = [], stream.SECONDS
    for program, said in programs:
        stream.SECONDS = 0.2 if "sleep" in " ".join(program) else seconds
        try:
            told(played, program)
            faults.append(f"taken: {program}")
        except answers.BenchFault as fault:
            faults += [] if str(fault) == said else [str(fault)]
    stream.SECONDS = seconds
    return faults


def faults_are_told():
    """Each wrong scenario gets its one line, nothing else, and status 1."""
    faults = []
    with tempfile.TemporaryDirectory() as folder:
        file = pathlib.Path(folder) / "wrong.scenario"
        for text, at, said in all_wrong():
            file.write_text(text)
            done = subprocess.run([str(ROOT / "scenario"), "--octets", str(file)],
                                  capture_output=True, text=True)
            line = f"{file}:{at}: {said}\n"
            if (done.returncode, done.stdout, done.stderr) != (1, "", line):
                faults.append(f"expected {line}  got {done.returncode} {done.stdout}{done.stderr}")
    return faults


def twice_settled_has_no_octets():
    """A scenario with two settings lines is no single bench input."""
    with tempfile.TemporaryDirectory() as folder:
        file = pathlib.Path(folder) / "twice.scenario"
        file.write_text(f"ap own={OWN}\nclock 1\nap own={OWN} edition=2\nclock 1\n")
        done = subprocess.run([str(ROOT / "scenario"), "--octets", str(file)],
                              capture_output=True, text=True)
    said = (f"scenario: {file}: settings are given 2 times, a bench input has them once: "
            "--octets is for a scenario with one settings line\n")
    got = done.returncode, done.stdout, done.stderr
    return [] if got == (1, "", said) else [str(got)]


def command_line_faults():
    """Wrong uses of the command get one line that says how it is used."""
    usage = ("scenario [--table | --lines | --octets | --check | --chart OUT.svg | --rival LOG] FILE, "
             "or scenario --help [WORD]")
    wanted = [([], f"no files given, one is wanted: {usage}"),
              (["a", "b"], f"2 files given, one is wanted: {usage}"),
              (["--tables", "a"], f"unknown option '--tables': {usage}"),
              (["--table", "--lines", "a"], f"--table and --lines do not go together: {usage}"),
              (["--chart"], f"--chart needs a value behind it: {usage}"),
              (["--table=1", "a"], f"unknown option '--table': {usage}"),
              (["no-such-file"], "no-such-file: No such file or directory"),
              (["/"], "/: Is a directory"),
              ([sys.executable], f"{sys.executable}: not a text in UTF-8, so no scenario")]
    faults = []
    for words, said in wanted:
        done = subprocess.run([str(ROOT / "scenario")] + words, capture_output=True, text=True)
        if (done.returncode, done.stdout, done.stderr) != (1, "", f"scenario: {said}\n"):
            faults.append(f"{words}: {done.returncode} {done.stderr}")
    return faults


def help_is_whole():
    """Each word, field, primitive, setting and number stands in the help, and --help prints it."""
    done = subprocess.run([str(ROOT / "scenario"), "--help"], capture_output=True, text=True)
    words = list(frame_words.BY_WORD) + list(frame_words.FIELDS) + list(primitives.BY_WORD) + list(expect.FORMS)
    missing = [word for word in words if f"  {word}" not in done.stdout]
    missing += [name for name in read.SETTINGS if f"{name}=" not in done.stdout]
    for numbers in (codes.STATUS, codes.REASON, codes.ALL_REFUSALS):
        missing += [about for number, about in numbers.items() if f"  {number:<4}{about}" not in done.stdout]
    missing += [name for number, (name, _) in codes.NOTICES.items() if f"  {number:<4}{name}" not in done.stdout]
    return missing + ([] if done.stdout == manual.text() else ["--help prints something else"])


def main():
    tests = (words_cover_classes, frames_round_trip, generated_frames_round_trip,
             frames_as_laid_out, settings_as_laid_out, links_as_laid_out, help_is_whole,
             primitives_by_word_and_number, odd_answers_are_told, faults_are_told,
             twice_settled_has_no_octets, command_line_faults, *tried.TESTS)
    failed = 0
    for test in tests:
        faults = test()
        failed += bool(faults)
        for fault in faults:
            print(f"{test.__name__}: {fault}")
    print(f"{len(tests) - failed} tests passed, {failed} failed; {len(all_wrong())} wrong scenarios, "
          f"{tried.COUNT} other ones")
    sys.exit(1 if failed else 0)


if __name__ == "__main__":
    main()
