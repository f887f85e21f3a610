"""What people try: words that they guess, forms that they have at hand, files with several faults, long ones."""

import io
import pathlib
import subprocess
import sys
import tempfile

from tools import bench_input as bench
from tools.scenario import frame_words, manual, primitives, source, suggest, topics

from .laid_out import OTHER, OWN, PEER, event
from .playing import lines_of

ROOT = pathlib.Path(__file__).resolve().parents[2]
FRAMES, PRIMITIVES = list(frame_words.BY_WORD), list(primitives.BY_WORD)
# A word that is tried for a frame, and what is offered for it; nothing where the families are named.
GUESSED = {
    "assoc": "assoc-request assoc-response", "auth": "auth-request auth-response", "AUTH": "auth-request auth-response",
    "reassoc": "reassoc-request reassoc-response", "authentication": "auth-request auth-response",
    "Authentication": "auth-request auth-response", "association": "assoc-request assoc-response",
    "deauthentication": "deauth", "deauthenticate": "deauth", "disassociation": "disassoc", "dissassoc": "disassoc",
    "probe": "probe-request probe-response", "authreq": "auth-request", "AuthenticationRequest": "auth-request",
    "assoc_resp": "assoc-response", "auth-reply": "auth-response", "autentication": "auth-request auth-response",
    "reauth": "auth-request auth-response", "dauth": "deauth", "sa-query": "sa-query-request sa-query-response",
    "query": "sa-query-request sa-query-response", "pspoll": "ps-poll", "blockack": "block-ack", "beacons": "beacon",
    "public": "public-action", "rst": "rts", "dta": "data", "join": "assoc-request assoc-response", "leave": "disassoc",
    "reboot": "", "x": "", "isassoc": "",
}
GUESSED_PRIMITIVES = {
    "auth": "authenticate", "deauth": "deauthenticate", "assoc": "associate", "disassoc": "disassociate",
    "reassoc": "reassociate", "respond": "respond-authenticate respond-associate respond-reassociate",
    "associate-response": "respond-associate", "answer-associate": "respond-associate", "sa-query": "query",
    "setprotection": "set-protection", "transmit-report": "report", "reauth": "authenticate", "reboot": "",
}
# Lines that lay out alike, whichever form is taken.
ALIKE = [
    ("frame raw b0003a01", "frame raw b0 00 3a 01", "frame raw b0:00:3a:01", "frame raw b0-00-3a-01", "frame raw 0xb0003a01",
     "frame raw 0xb0 0x00 0x3a 0x01", "frame raw B0,00,3A,01", "FRAME RAW b000 3a:01"),
    (f"frame data from={PEER} body=dd0102", f"frame data from={PEER} body=dd 01 02", f"Frame Data From={PEER} BODY=dd:01:02",
     f"frame data from={PEER} body=0xdd 0x01 02", f"frame data body=dd-01-02 from={PEER}"),
    ("prim authenticate 02:00:00:00:00:0a", "prim Authenticate 02-00-00-00-00-0A", "prim 1 0200.0000.000a",
     "PRIM authenticate 02000000000a code=0"),
    ("clock 1953", "clock 2s", "clock 2000ms", "clock 1953TU", "clock 0x7a1", "clock 2000000us", "Clock 2S"),
    ("clock 58593", "clock 1min", "clock 60s"), ("clock 488", "clock 500ms", "clock 0.5s"),
]
# A time and its clock steps.
STEPS = {"65535": [65535], "65536": [65535, 1], "131070": [65535, 65535], "1h": [65535] * 53 + [42270], "0": [0], "1ms 1": None}


def offered():
    """What is offered for a word that is none; never a farewell for a greeting, nor the other way round."""
    faults = []
    for words, known in ((GUESSED, FRAMES), (GUESSED_PRIMITIVES, PRIMITIVES)):
        for word, wanted in words.items():
            found = " ".join(suggest.near(word, known))
            faults += [] if found == wanted else [f"{word}: offers {found or 'nothing'}"]
    return faults


def never_astray():
    """Each word with a letter left out, doubled, changed or moved: no farewell is offered for what began as a greeting."""
    faults, count = [], 0
    for known in (FRAMES, PRIMITIVES):
        for word in known:
            leaves = word.startswith(("de", "dis"))
            slips = {word[:at] + put + word[at + cut:] for at in range(1, len(word)) for put in ("", "x", word[at] * 2)
                     for cut in (0, 1)} - set(known)
            for slip in slips:
                count += 1
                for found in suggest.near(slip, known):
                    if found.startswith(("deauth", "disas")) != leaves and (
                            found.startswith(("deauth", "disas")) or leaves and "a" in slip[:4]):
                        faults.append(f"{slip} of {word}: offers {found}")
    return faults + ([] if count > 1000 else [f"only {count} slips"])


def forms():
    """The forms of octets, addresses and times are the same octets."""
    faults = []
    for first, *others in ALIKE:
        wanted = event(first).record
        faults += [line for line in others if event(line).record != wanted]
    for text, steps in STEPS.items():
        try:
            made = [event_.record for event_ in lines_of(f"ap own={OWN}\nclock {text}\n")[1].events]
        except source.ScenarioFault:
            made = None
        wanted = None if steps is None else [bench.clock(step) for step in steps]
        faults += [] if made == wanted else [f"clock {text}"]
    padded = lines_of(f"ap own={OWN}\nname s-08..11 = {OTHER}\nframe data from=s-08..11\n")[2].events
    plain = lines_of(f"ap own={OWN}\nname s-10..11 = {OTHER}\nname s-08 = {PEER}\n")
    return faults + ([] if len(padded) == 4 and len(plain) == 3 else ["s-08..11"])


def run(words, text=None):
    done = subprocess.run([str(ROOT / "scenario"), *words], input=text, capture_output=True, text=True)
    return done.returncode, done.stdout, done.stderr


def faults_of(text):
    try:
        list(source.lines(io.StringIO(text), "F"))
    except source.ScenarioFault as fault:
        return str(fault).split("\n")
    return []


def all_at_once():
    """Several faults of a file are told in one run, twenty at most; a line that rests on one at fault is not blamed."""
    several = f"ap own={OWN}\nname q = 02\nframe data from=q\nprim 2 q\nframe auth\nclock x\nexpect state q 1\nfoo\n"
    follow = f"ap own=1\nframe data from={PEER}\nexpect admitted\nname s-1..3 = 02\nframe data from=s-1..3\n"
    many = f"ap own={OWN}\n" + "clock x\n" * 30
    pairs = [([fault.split(":")[1] for fault in faults_of(several)], ["2", "5", "6", "8"]),
             ([fault.split(":")[1] for fault in faults_of(follow)], ["1", "4"]),
             (len(faults_of(many)), 21), (faults_of(many)[-1], "F: more than 20 faults, these are the first"),
             (len(faults_of(f"ap own={OWN}\n" + "clock x\n" * 20)), 20)]
    return [f"{got}, not {wanted}" for got, wanted in pairs if got != wanted]


def nothing_passes():
    """Long words are cut, and no sign that a terminal acts on is passed on, in faults nor in what is told."""
    faults = []
    for text in ("\x1b[2J", "clock \x07", "frame data from=\x1b]0;x\x07", "# \u202e\n\x00", "x" * 500, "prim 2 " + "y" * 300):
        said = "\n".join(faults_of(f"ap own={OWN}\n{text}\n"))
        if not said.replace("\n", "").isprintable() or max(map(len, said.split("\n"))) > 300 or not said:
            faults.append(repr(said))
    status, told, errors = run(["--lines", "-"], f"ap own={OWN}\nclock 1 # \x1b[2J\x9b\u202e\n")
    shown = run(["-"], f"ap own={OWN}\nclock 1 # \x1b[2J\x9b\u202e\ttab\r\n")
    if (status, told, errors) != (0, "1 0 - 0 0 0 - 0\n", "") or "# \\x1b[2J\\x9b\\u202e\ttab\n" not in shown[1]:
        faults.append(f"{told} {shown}")
    return faults + ([] if faults_of(f"ap own={OWN}\n# {'z' * 70000}\nclock 1\n") else ["a line without an end"])


def without_rt():
    """Without the kit on the PATH, where it is needed, one line says so."""
    with tempfile.TemporaryDirectory() as folder:
        copy = pathlib.Path(folder) / "copy"
        (copy / "tools").parent.mkdir(parents=True)
        (copy / "tools").symlink_to(ROOT / "tools")
        code = ("import sys; sys.path.insert(0, sys.argv[1]); import pathlib; from tools.scenario import command, stream; "
                "stream.BENCH[0] = sys.argv[1] + '/bench'; sys.exit(command.main(['-']))")
        done = subprocess.run([sys.executable, "-c", code, str(copy)], input=f"ap own={OWN}\n", env={"PATH": folder},
                              capture_output=True, text=True)
    said = ("scenario: the bench program is not built yet, and the Rattle kit's 'rt' is not on the PATH: install the kit, "
            "or add its bin folder to PATH; then './run' builds it\n")
    return [] if (done.returncode, done.stdout, done.stderr) == (1, "", said) else [str(done)]


def every_word_has_help():
    """--help WORD says something of each word, and offers one for a word that is none."""
    words = [*FRAMES, *PRIMITIVES, *frame_words.FIELDS, *topics.TOPICS, *manual.LISTS, *manual.SAME]
    faults = [word for word in words if manual.text([word]).startswith("No word")]
    faults += [word for word in FRAMES if f"  frame {word}" not in manual.text([word])]
    pairs = [("autentication", "No word of a scenario is 'autentication': did you mean 'auth-request' or 'auth-response'?\n"),
             ("x\x1b", "No word of a scenario is 'x\\x1b': scenario --help lists them all.\n")]
    return faults + [manual.text([word]) for word, said in pairs if manual.text([word]) != said]


def help_examples_are_good():
    """Each line that the help shows as an example is one that is taken."""
    texts = [line.strip().split("   ")[0] for line in manual.EXAMPLES.splitlines() if line.startswith("  ")]
    texts += [line.strip() for about in topics.TOPICS.values() for line in about.splitlines() if line.startswith("  ")]
    texts += [line.strip() for word in [*FRAMES, *PRIMITIVES] for line in manual.text([word]).splitlines()
              if line.startswith(("  frame ", "  prim "))]
    start = (f"name scanner = 02:00:00:00:05:01\nname yard = {OTHER}\nname tablet = 02:00:00:00:02:00\nname radio-1..3 = 02:00:00:00:02:01\n"
             f"name PEER = 02:00:00:00:04:01\nap own={OWN}\n")
    faults = []
    for text in texts:
        before = "" if text.startswith("name ") else "name dock = 02:00:00:00:03:01\n"
        faults += faults_of(f"{start}{before}frame ack\n{text}\n")
    return faults + ([] if len(texts) > 80 else [f"only {len(texts)} examples"])


def elements_are_the_hosts():
    """A primitive takes no element: the table writes none."""
    said = ("F:2: primitive respond-associate takes no comeback: the table writes no elements, the host appends them to the "
            "frame; comeback=.. is for a frame that comes in")
    got = faults_of(f"ap own={OWN}\nprim respond-associate {PEER} status=30 comeback=7\n")
    return [] if got == [said] else got


def long_ones_stream():
    """The first lines come while the text is not yet at its end, and many events need no more memory than few."""
    code = ("import resource, sys; from tools.scenario import command; command.main(['-']); "
            "print(resource.getrusage(resource.RUSAGE_SELF).ru_maxrss, file=sys.stderr)")
    peak = []
    for count in (1000, 40000):
        text = f"ap own={OWN}\n" + f"frame auth-request from={PEER}\nclock 3\n" * (count // 2)
        done = subprocess.run([sys.executable, "-c", code], input=text, capture_output=True, text=True, cwd=ROOT)
        peak.append(int(done.stderr))
        if done.stdout.count("\n    ") != count + 1 + count // 2 * 2:
            peak.append(done.stdout.count("\n    "))
    playing = subprocess.Popen([str(ROOT / "scenario"), "-"], stdin=subprocess.PIPE, stdout=subprocess.PIPE, text=True)
    playing.stdin.write(f"ap own={OWN}\n" + "clock 1\n" * 6000)
    playing.stdin.flush()
    first = playing.stdout.readline()
    playing.stdin.close()
    playing.stdout.read()
    playing.wait()
    faults = [] if first == f"ap own={OWN}\n" else [first]
    return faults + ([] if len(peak) == 2 and peak[1] < peak[0] + 16000 else [f"memory: {peak}"])


TESTS = (offered, never_astray, forms, all_at_once, nothing_passes, without_rt, every_word_has_help,
         help_examples_are_good, elements_are_the_hosts, long_ones_stream)
COUNT = len(GUESSED) + len(GUESSED_PRIMITIVES) + sum(map(len, ALIKE)) + len(STEPS)
