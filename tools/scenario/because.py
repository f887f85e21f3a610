"""Why an event was refused, discarded or did nothing: the program's reason and value, with what they are about.

The rule that decided is the program's. What is named beside it, the very setting, argument or record, is looked up
here in the event and the table before it, in the order of the rules; where nothing fits, the rule's own words stand.
"""

from tools import bench_input as bench

from . import because_frame, codes, frames
from .answers import device
from .because_frame import invalid, length_words, shown, single
from .rows import WAIT

REASONS = tuple(f"refusal-{number}" for number in range(1, 10)) + (
    "no-class", "class-filter", "group-rule", "nothing-to-do", "none")
# The codes that a primitive takes: 0 alone, any but 0, 0 or 1; all where it is not listed.
CODES = {**{which: ("0", lambda code: code == 0) for which in (1, 4, 5, 9, 11)},
         **{which: ("any but 0", lambda code: code != 0) for which in (3, 6)},
         10: ("0 or 1", lambda code: code < 2)}
MOST_LINKS, PLACES = 4, 32


def _settings(settings):
    """The first setting that is out of range."""
    edition, protection, retry, maximum = (
        usual if value is None else value for value, usual in zip(settings.rule, bench.USUAL_RULE))
    ad_hoc = settings.role == bench.AD_HOC
    checks = ((settings.role in codes.ROLES, f"role is {settings.role}, not 1, 2 or 3"),
              (not invalid(settings.own), f"own is {bench.address_text(settings.own)}, {single(settings.own)}"),
              (settings.rsna < 2, f"rsna is {settings.rsna}, not 0 or 1"),
              (settings.timeouts[0], "the timeout of an authentication is 0, not 1 to 65,535 TU"),
              (settings.timeouts[1], "the timeout of an association is 0, not 1 to 65,535 TU"),
              (edition in (1, 2), f"edition is {edition}, not 1 or 2"),
              (protection < 2, f"protection is {protection}, not 0 or 1"),
              (retry, "query-retry is 0, not 1 to 65,535 TU"), (maximum, "query-maximum is 0, not 1 to 65,535 TU"),
              (not ad_hoc or settings.network is not None, "an ad hoc network has an address, and none is given"),
              (not ad_hoc or not invalid(settings.network or bench.BROADCAST),
               f"network is {bench.address_text(settings.network or bench.ZERO)}, {single(settings.network or bench.ZERO)}"))
    return next((said for good, said in checks if not good), "the settings are not well formed")


def _argument(event, before, settings, say):
    """The first argument of a primitive that can't be meant."""
    code, peer = int.from_bytes(event.record[-2:], "little"), event.peer
    if not 1 <= event.primitive <= 11:
        return f"{event.primitive} is no primitive" + (", links are named by a links line" if event.primitive == 12 else "")
    if invalid(peer):
        return f"{say(peer)} is {single(peer)}"
    if peer == settings.own:
        return "the peer is our own address"
    if device(peer, before) != peer:
        return f"{say(peer)} is a link of {say(device(peer, before))}, and a primitive names the device"
    allowed, good = CODES.get(event.primitive, ("", lambda _: True))
    return f"the code is {code}, and this primitive takes {allowed}" if not good(code) else codes.REFUSAL_3["prim"]


def _links(event, before, settings, say):
    """The first thing wrong with a list of links."""
    body = event.record[bench.HEAD:]
    links = [body[at:at + 6] for at in range(7, len(body), 6)]
    if len(links) > MOST_LINKS:
        return f"{len(links)} links are named, and a device has four at most"
    named = [event.peer, *links]
    for at, address in enumerate(named):
        if invalid(address):
            return f"{say(address)} is {single(address)}"
        if address == settings.own:
            return f"{say(address)} is our own address"
        if address in named[:at]:
            return f"{say(address)} is given twice"
    for address in named:
        owner = device(address, before)
        if owner in before and owner != event.peer:
            return f"{say(address)} is in use by {say(owner)}" if owner != address else f"{say(address)} is in use as a peer"
    return codes.REFUSAL_3["links"]


def _under_way(event, before, say):
    """The exchange that a primitive would have to wait for: the peer's own, or any to join."""
    own = before.get(event.peer)
    busy = own if own and own.exchange else min(
        (record for record in before.values() if record.exchange and (record.exchange - 1) % 3), default=None)
    if busy is None:
        return codes.REFUSALS[9]
    return f"{codes.KINDS[(busy.exchange - 1) % 3 + 1]} with {say(busy.address)} is under way"


def _no_match(event, value, before, say):
    """Refusal 7, with the state of the peer."""
    joined = min((record for record in before.values() if record.state > 2 and record.address != event.peer), default=None)
    if event.primitive == 4 and joined:
        return f"we are associated with {say(joined.address)}: reassociate instead"
    said = codes.REFUSAL_7.get(event.primitive, "no matching exchange or state").replace("the peer", say(event.peer), 1)
    said = said.replace("this peer", say(event.peer)).replace("the device", say(event.peer))
    state = f"it is in State {value}" if say(event.peer) in said else f"{say(event.peer)} is in State {value}"
    return f"{said}, {state}"


def _refused(event, answer, before, settings, say):
    number, value = answer.refusal, answer.value
    if number == 2:
        return _settings(settings)
    if number == 3:
        three = {"frame": lambda: length_words(event.frame, value, settings, say),
                 "prim": lambda: _argument(event, before, settings, say),
                 "links": lambda: _links(event, before, settings, say)}
        return three[event.kind]() if event.kind in three else codes.REFUSAL_3["clock"]
    if number == 4:
        return f"Address 1 is {say(event.frame[4:10])}, neither our own nor a group address"
    if number == 6:
        return f"all {PLACES} places are taken, and {say(event.peer)} needs one"
    if number == 7:
        return _no_match(event, value, before, say)
    if number == 8:
        return f"the hold on {say(event.peer)} is {value if value == WAIT else f'{value:,}'} TU"
    if number == 9:
        return _under_way(event, before, say)
    return codes.refusal(number, event.kind, event.primitive, settings.role)


def because(event, answer, before, settings, say):
    """What stands behind 'because'; '' where the event did what it asked for."""
    if answer.refusal:
        return _refused(event, answer, before, settings, say)
    if answer.reason == "no-class":
        version = event.frame[0] & 3
        return f"its version is {version}, not 0" if version else f"a frame of {shown(event.frame)} has no class"
    if answer.reason == "class-filter":
        peer = say(event.peer) if event.peer else "its sender"
        if settings.role == bench.AD_HOC:
            return f"only class 1 passes in an ad hoc network, and {peer} is in State {answer.value}"
        row = frames.word_of(event.frame)
        secret = row.word == "public-action" and event.frame[1] & bench.PROTECTED
        return f"a class {3 if secret else row.class_} frame does not pass while {peer} is in State {answer.value}"
    if answer.reason == "group-rule":
        return f"Address 1 is {say(event.frame[4:10])}, and such a frame is for one receiver alone"
    return because_frame.nothing(event, before, settings, say) if answer.reason == "nothing-to-do" else ""
