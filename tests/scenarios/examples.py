"""Plays the examples: python3 -m tests.scenarios.examples --bench CMD --independent CMD.

For each examples/NAME.scenario: what the tool tells is examples/NAME.out, through the command itself and
from the changes of each of the two programs; both print the same plain lines. The nine steps are the octets
and the lines that the bench program is checked with, and the README shows a part of what is told of them.
"""

import argparse
import pathlib
import random
import re
import shlex
import subprocess
import sys
import textwrap

from tests.cases import difference
from tools.scenario import show, source, stream

from . import expected, long, reasons
from .playing import inputs, lines_of, plain_lines, told

ROOT = pathlib.Path(__file__).resolve().parents[2]
EXAMPLES = ROOT / "examples"
# A block that tells what an event did: a line of a scenario, and a number below it.
TOLD = re.compile(r"^(prim|frame|clock) .*\n    [0-9]+  ", re.MULTILINE)


def command_prints(*words):
    done = subprocess.run([str(ROOT / "scenario"), *words], capture_output=True)
    return done.stdout if done.returncode == 0 else done.stderr


def check(file, bench, independent):
    """The faults of one example."""
    stored = file.with_suffix(".out").read_text()
    lines = lines_of(file.read_text(), file.name)
    plain = plain_lines(lines, bench)
    both = [program + ["changes"] for program in (bench, independent)]
    tables = [told(lines, program, True) for program in both]
    compared = {
        "the command": (stored, command_prints(str(file)).decode()),
        "bench": (stored, told(lines, both[0])),
        "independent program": (stored, told(lines, both[1])),
        "plain lines of both": (plain, plain_lines(lines, independent)),
        "--lines": (plain, command_prints("--lines", str(file)).decode()),
        "tables of both": tuple(tables),
        "--table": (tables[0], command_prints("--table", str(file)).decode()),
        "--check": ("", command_prints("--check", str(file)).decode()),
    }
    if len(inputs(lines)) == 1:
        compared["--octets"] = inputs(lines)[0][0].hex(), command_prints("--octets", str(file)).hex()
    found = {what: difference(*pair) for what, pair in compared.items()}
    return [f"{what}: {fault}" for what, fault in found.items() if fault]


AP_FORMS = (
    "frame auth-request from={}", "prim respond-authenticate {} status=0", "frame assoc-request from={}",
    "prim respond-associate {} status=0", "prim report {} acknowledged=1", "frame data from={} body={:04x}",
    "frame deauth from={} reason={}", "clock {1}", "frame sa-query-request from={} id={}", "prim query {}",
    "frame data from={} version=1", "frame assoc-response from={}", "links {} 02:00:00:00:09:01", "prim 3 {} code=0",
    "links {} none", "frame auth-request from=02:00:00:00:09:01", "frame assoc-request from={} to=03:00:00:00:00:{:02x}")
STATION_FORMS = (
    "prim authenticate {}", "frame auth-response from={}", "prim associate {}", "frame assoc-response from={} status=30 comeback={}",
    "frame assoc-response from={}", "frame data from={} from-ds=1", "frame beacon from={}", "clock {1}", "prim reassociate {}",
    "frame deauth from={} reason={}", "frame data from={0} from-ds=1 sequence={1}")
LINK_FORMS = (
    "links {0} r-{0}", "links {0} none", "frame auth-request from=r-{0}", "prim respond-authenticate {}", "frame assoc-request from=r-{0}",
    "prim respond-associate {}", "prim report {}", "frame data from=r-{0}", "frame data from={}", "frame deauth from=r-{0}",
    "prim deauthenticate r-{0}", "clock {1}")
RANGES = "frame auth-request from=s-3..9", "frame data from=s-1..5", "prim deauthenticate s-2..6 reason={1}"


def many_lines(seed, count, forms=AP_FORMS, peers=40):
    """Lines of an access point with forty peers, or by other forms, drawn by chance."""
    draw = random.Random(seed)
    for _ in range(count):
        yield draw.choice(forms).format(f"s-{draw.randrange(1, peers + 1)}", draw.randrange(1, 256)) + "\n"


def kept_words(bench):
    """What is told of an event is the same whether or not its like was told before."""
    faults = []
    for settings, forms, peers in (("ap", AP_FORMS, 40), ("ap", AP_FORMS + RANGES, 12), ("ap", LINK_FORMS, 4),
                                   ("station", STATION_FORMS + RANGES, 6)):
        text = f"{settings} own=02:00:00:00:00:01 edition=2 protection=1\nname s-1..40 = 02:00:00:00:01:01\n"
        text += "name r-s-1..4 = 02:00:00:00:08:01\n" + "".join(many_lines(1, 4000, forms, peers))
        keeping, anew = show.Teller(), show.Teller()
        for again in (anew._again, anew._each):
            again.words = again.anew
        for line, turns in stream.one_by_one(iter(lines_of(text)), bench + ["changes"]):
            one, other = "".join(keeping.lines([line], turns)), anew.line(line, turns)
            faults += [] if one == other else [f"{one} is told in place of {other}"]
    return faults


def unmet_is_told():
    """What is not met ends the command with status 1: told in the transcript and on standard error, or alone."""
    text = "ap own=02:00:00:00:00:01\nframe ack\nexpect discarded # a remark\nexpect admitted\n"
    wrong = "standard input:3: expect discarded: not met: admitted\n"
    told_so = ("expect discarded # a remark\n    NOT MET: admitted\nexpect admitted\n"
               "2 expectations, 1 not met: line 3\n")
    pairs = [([], told_so, wrong), (["--check"], wrong, "")]
    faults = []
    for words, ends, errors in pairs:
        done = subprocess.run([str(ROOT / "scenario"), *words, "-"], input=text, capture_output=True, text=True)
        if done.returncode != 1 or not done.stdout.endswith(ends) or done.stderr != errors or words and done.stdout != ends:
            faults.append(str(done))
    return faults


def readme(bench):
    """The README's part of what is told of the nine steps is so, and its own scenario can be played."""
    blocks = [textwrap.dedent(block) for block in (ROOT / "README.md").read_text().split("\n\n")]
    shown = [block for block in blocks if TOLD.search(block)]
    own = [block for block in blocks if block.startswith("station own=")]
    if len(shown) != 1 or len(own) != 1:
        return ["not one part of the nine steps and one scenario"]
    faults = []
    if shown[0] not in (EXAMPLES / "nine_steps.out").read_text():
        faults.append("what it shows is not told of the nine steps")
    try:
        if not told(lines_of(own[0], "its scenario"), bench + ["changes"]).endswith("expectations, all met\n"):
            faults.append("its scenario does not do what it expects")
    except source.ScenarioFault as fault:
        faults.append(str(fault))
    return faults


def nine_steps():
    """The nine steps are those of the bench program's own check."""
    file = EXAMPLES / "nine_steps.scenario"
    crate = ROOT / "crates/bench"
    faults = []
    if command_prints("--octets", str(file)) != (crate / "stdin").read_bytes():
        faults.append("the octets are not those of crates/bench/stdin")
    if command_prints("--lines", str(file)) != (crate / "stdout").read_bytes():
        faults.append("the lines are not those of crates/bench/stdout")
    return faults


def main():
    parser = argparse.ArgumentParser(description=__doc__.splitlines()[0])
    parser.add_argument("--bench", required=True)
    parser.add_argument("--independent", required=True)
    given = parser.parse_args()
    bench, independent = shlex.split(given.bench), shlex.split(given.independent)
    files = sorted(EXAMPLES.glob("*.scenario"))
    results = {file.name: check(file, bench, independent) for file in files}
    results["nine steps"] = nine_steps()
    results["reasons"] = reasons.faults(bench + ["changes"])
    results["expectations"] = expected.faults(bench + ["changes"])
    results["unmet"] = unmet_is_told()
    results["kept words"] = kept_words(bench)
    results["long scenarios"] = long.faults(bench, many_lines(2, 9000, AP_FORMS + RANGES))
    results["README.md"] = readme(bench)
    for name, faults in results.items():
        for fault in faults:
            print(f"{name}: {fault}")
    failed = sum(1 for faults in results.values() if faults)
    print(f"{len(files)} examples, {failed} failed")
    sys.exit(1 if failed or not files else 0)


if __name__ == "__main__":
    main()
