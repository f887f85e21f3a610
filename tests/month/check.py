"""The month in words, pictures and sheets: python3 -m tests.month.check --program CMD.

The example is told as it is stored, and the picture in docs/pictures is drawn from the lines that this program prints. Then
what people give: names of every kind, hundreds of files, numbers past 64 bits, folders that are not there, programs that
print what they never should. Each gets its numbers, or a line that says what is wrong.
"""

import argparse
import csv
import io
import os
import pathlib
import re
import shlex
import shutil
import subprocess
import sys
import tempfile
import xml.dom.minidom

from tests import ending
from tests.cases import CASES, difference, read_hex
from tools.month import blocks, picture, sheet, words
from tools.scenario.answers import BenchFault

from . import made

ROOT = pathlib.Path(__file__).resolve().parents[2]
EXAMPLE = ROOT / "examples/month"


def run(given, folder=ROOT, **more):
    done = subprocess.run([str(ROOT / "month"), *given], capture_output=True, cwd=folder, **more)
    return done.returncode, done.stdout.decode("utf-8"), done.stderr.decode("utf-8")


def example(program):
    """Its words are the stored ones, and its lines those that the picture is drawn from."""
    done = subprocess.run([str(EXAMPLE / "run"), "--bench", shlex.join(program)], capture_output=True, text=True)
    faults = [difference((EXAMPLE / "stdout").read_text(), done.stdout), done.stderr]
    printed = (EXAMPLE / "lines").read_bytes()
    names = [line[5:] for line in printed.decode().splitlines() if line.startswith("file ")]
    with tempfile.TemporaryDirectory() as folder:
        for name in names:
            scenario = ROOT / "examples" / f"{pathlib.Path(name).stem}.scenario"
            laid = subprocess.run([str(ROOT / "scenario"), "--octets", str(scenario)], capture_output=True, check=True).stdout
            (pathlib.Path(folder) / name).write_bytes(laid)
        again = subprocess.run([*program, "month", *names], capture_output=True, cwd=folder)
    faults.append(difference(printed.decode(), again.stdout.decode()))
    return [f"example: {fault}" for fault in faults if fault]


def odd_names(program):
    """Names with blanks, signs that a terminal acts on, line ends and octets that are no text: counted, and shown harmless."""
    faults = []
    octets = read_hex((CASES / "nine_steps/input.hex").read_text())
    with tempfile.TemporaryDirectory() as folder:
        names = ["a b", "tab\there", "bell\x07", "\x1b[2J", "line\nend\nall\nevents 9", "\u202eright", "-dash", "ümlaut",
                 os.fsdecode(b"\xff\xfe"), "x" * 200, "=1+2", "a,\"b\""]
        for name in names:
            pathlib.Path(os.path.join(folder, name)).write_bytes(octets)
        status, told, errors = run([*names, "--bench", shlex.join(program), "--svg", "o.svg", "--csv", "o.csv"], folder)
        rows = list(csv.reader(io.StringIO((pathlib.Path(folder) / "o.csv").read_text())))
        svg = (pathlib.Path(folder) / "o.svg").read_text()
        xml.dom.minidom.parseString(svg)
    if (status, errors) != (0, "") or not all(line.isprintable() for line in told.split("\n")):
        faults.append(f"{status} {errors} {told}")
    if [row[2] for row in rows[1:]] != ["9"] * len(names) + [str(9 * len(names))] or len(rows) != len(names) + 2:
        faults.append(f"rows: {rows}")
    return faults + ([] if all(line.isprintable() for line in svg.split("\n")) else ["svg has signs that are not to be printed"])


def wrong_uses(program):
    """Wrong words, folders and programs: one line, nothing else, status 1; nothing is written."""
    usage = "month FILE.. [--svg OUT.svg] [--csv OUT.csv], or month --help"
    bench = ["--bench", shlex.join(program)]
    with tempfile.TemporaryDirectory() as folder:
        (pathlib.Path(folder) / "f").write_bytes(b"")
        os.mkdir(os.path.join(folder, "d"))
        pairs = [([], f"no file given: {usage}"), (["--svg", "o"], f"no file given: {usage}"),
                 (["f", "--svg"], f"--svg needs a value behind it: {usage}"), (["f", "--table"], f"unknown option '--table': {usage}"),
                 (["f", "--\x1b"], f"unknown option '--\\x1b': {usage}"),
                 (["f", "--csv", "a", "--csv", "b"], f"--csv is given twice: {usage}"),
                 (["f", "--svg", "no/o.svg"], "no/o.svg: there is no folder no"), (["f", "--svg", "d"], "'d' is no file to write to"),
                 (["f", "--csv="], "'' is no file to write to"), (["f", "--svg", "./f"], "./f is one of the files that are counted"),
                 (["f", "--svg", "o", "--csv", "./o"], "./o is given twice: --svg and --csv write two files"),
                 (["f", "--bench", "/no/such"], "/no/such can't be run: No such file or directory"),
                 (["f", "--bench", "true"], "the bench program did not count: it ended with status 0"),
                 (["f", "--bench", "sh -c 'echo broken >&2; exit 3'"], "the bench program did not count: broken"),
                 (["f", "--bench", "echo"], "the bench program printed 'month f', which is no line of a month")]
        faults = []
        for given, said in pairs:
            got = run(given + (bench if "--bench" not in given else []), folder)
            faults += [] if got == (1, "", f"month: {said}\n") else [f"{given}: {got}"]
        return faults + ([] if sorted(os.listdir(folder)) == ["d", "f"] else [str(os.listdir(folder))])


def files_at_fault(program):
    """A file that stops or can't be read is named on standard error; the others stand, and the status is 1."""
    with tempfile.TemporaryDirectory() as folder:
        good = pathlib.Path(folder) / "good"
        good.write_bytes(read_hex((CASES / "nine_steps/input.hex").read_text()))
        (pathlib.Path(folder) / "stops").write_bytes(read_hex((CASES / "stop_cut_body/input.hex").read_text()))
        bench = ["--bench", shlex.join(program)]
        status, told, errors = run(["good", "stops", "none", *bench], folder)
        alone = run(["good", *bench], folder)
    named = [line for line in errors.splitlines() if re.match(r"month: .*[ '](?:stops|none)[':]", line)]
    good_rows = [next((line.split() for line in text.splitlines() if line.startswith("  good ")), text) for text in (told, alone[1])]
    faults = [] if status == 1 and len(named) == len(errors.splitlines()) == 2 else [f"{status}: {errors}"]
    return faults + ([] if good_rows[0] == good_rows[1] and alone[0] == 0 else [str(good_rows)])


def read_back():
    """Blocks drawn by chance, with `over` in any place, printed as the program prints them: read, written to a sheet and drawn.
    No words of a picture lie on others or leave it, and every number of the sheet is the one printed."""
    faults = []
    for many in (1, 2, 7, 8, 20, 31, 32, 300):
        for seed in range(4):
            names, printed = made.month(seed, many)
            found, all_ = blocks.read(printed, names)
            canvas = picture.draw(names, found, all_)
            xml.dom.minidom.parseString(canvas.svg())
            faults += [f"{many} files: {fault}" for fault in canvas.faults()] + ([f"{canvas.height} high"] if canvas.height > 1700 else [])
            rows = list(csv.reader(io.StringIO(sheet.text(names, found, all_))))
            faults += [] if [row[2:-1] for row in rows[1:]] == made.numbers(printed) else [f"the sheet of {many} files"]
            told = "\n".join(words.lines(names, found, all_))
            over = b"over" in printed
            faults += [] if told.count("\n") >= many and over == ("'over' is a number" in told) else [f"the words of {many} files"]
            rest = f"the other {many - 30:,} are the last one" in canvas.svg()
            faults += [] if rest == (many > 31) else [f"{many} files: what is drawn is not said"]
    return faults


def odd_blocks():
    """Lines that no month has are named."""
    names, printed = made.month(1, 2)
    faults = []
    for old, new in ((b"events ", b"event "), (b"refusals ", b"refusals 1 "), (b"joins ", b"joins -"), (b"mean ", b"mean 1/"),
                     (b"all\n", b"al\n"), (b"file ", b"fill "), (b"holds ", b"holds 0")):
        try:
            blocks.read(printed.replace(old, new, 1), names)
            faults.append(f"{new!r} is taken")
        except BenchFault:
            pass
    for cut in (printed[:-1], printed + b"x\n", printed[:100]):
        try:
            blocks.read(cut, names)
            faults.append(f"taken: {cut[-20:]!r}")
        except BenchFault:
            pass
    return faults


def ends_well(program):
    """A reader that has seen enough, and a PATH without the kit."""
    line = f"{shlex.quote(str(ROOT / 'month'))} crates/bench/stdin --bench {shlex.quote(shlex.join(program))} | true; exit ${{PIPESTATUS[0]}}"
    done = subprocess.run(["bash", "-c", line], cwd=ROOT, capture_output=True, text=True)
    faults = [] if (done.returncode, done.stderr) == (0, "") else [str(done)]
    with tempfile.TemporaryDirectory() as folder:
        copy = pathlib.Path(folder) / "copy"
        copy.mkdir()
        shutil.copytree(ROOT / "tools", copy / "tools", ignore=shutil.ignore_patterns("__pycache__"))
        shutil.copy(ROOT / "month", copy / "month")
        done = subprocess.run([sys.executable, str(copy / "month"), "f"], env={"PATH": folder}, capture_output=True, text=True)
    said = "month: the bench program is not built yet, and the Rattle kit's 'rt' is not on the PATH"
    return faults + ([] if done.returncode == 1 and done.stderr.startswith(said) and done.stderr.count("\n") == 1 else [str(done)])


def main():
    parser = argparse.ArgumentParser(description=__doc__.splitlines()[0])
    parser.add_argument("--program", required=True)
    program = shlex.split(parser.parse_args().program)
    program[0] = os.path.abspath(program[0])
    tests = (example, odd_names, wrong_uses, files_at_fault, ends_well)
    faults = [f"{test.__name__}: {fault}" for test in tests for fault in test(program)]
    faults += [f"{test.__name__}: {fault}" for test in (read_back, odd_blocks) for fault in test()]
    ending.tell(f"{len(tests) + 2} tests of the month", faults)


if __name__ == "__main__":
    main()
