"""Explanations of rehearsals, computed from document 01 with Python's own library: the playbook, each record in words
beside its line, the ends after the last one, and the verdict (tests/verdict.py).

    python3 tests/stories.py FILE                   the explanation of an input
    python3 tests/stories.py compare PROGRAM FILE.. which inputs the program explains otherwise

Nothing here is taken from the crates but the wording. Names and numbers are document 01's.
"""
import struct
import subprocess
import sys

import surveys
from paper import SCRIPT, SHARE, is_sealed, key, record_at
from rehearsals import begun
from verdict import named, verdict

# So many bytes are read: the longest input that can be rehearsed, and one more.
ROOM = 13507

# Of a record.
MEANINGS = {
    11: "it is no share",
    13: "it is for another switch",
    14: "its tag does not match",
    15: surveys.MALFORMED,
    16: "too late, its number is not above the last applied",
    17: "its number is below that of the share held from this controller",
    18: "this controller has asked for another rule under this number",
    19: "the flow table is full",
    22: "its serial is not above the last one decided for that switch, 0 at first",
    24: "more than 64 changes would be undone",
    26: "nothing is ready to send",
    29: "the places are 0 to 63",
    30: "the last record is cut short",
    31: "a script has no such record",
}
DONE = {"report": "taken", "keep": "kept"}


def route(rule):
    prefix, length, port = rule
    address = ".".join(str(byte) for byte in struct.pack(">I", prefix))
    return "%s/%d %s" % (address, length, "to port %d" % port if port else "removed")


def undone(count):
    return "%s undone change%s" % (count or "no", "s" if count > 1 else "")


def at(switch, last):
    return "switch %d %s" % (switch, "is at change %d" % last if last else "has made no change")


def fields(share):
    """The sender, the number and the rule of a share's bytes, or none where they are no share's."""
    if share is None or share[0] != SHARE.number:
        return None
    sender, _, number, *rule = SHARE.fields(share)
    return sender, number, tuple(rule)


def asked(call, given, share):
    """What a record asks for."""
    if call == "decide":
        return "controller %d decides on event %d of switch %d, cause %d" % (given[0], given[2], given[1], given[3])
    if call == "send":
        return "controller %d sends its share to switch %d" % given
    if call == "report":
        return "switch %d reports to controller %d" % given
    if call == "keep":
        return "controller %d makes its share for switch %d, kept in place %d" % given
    if call == "raw":
        if share is None:
            return "a made-up message reaches switch %d" % given[0]
        return "a made-up share in the name of controller %d reaches switch %d" % (share[0], given[0])
    if share is None:
        return "the share kept in place %d is due" % given
    return "the share of controller %d kept in place %d reaches switch %d" % (share[0], given[0], share[3])


def taken(first, last):
    """What a decision that gave these numbers came to."""
    if first > last:
        return "taken, and no change is planned for it"
    return "taken as change %d" % last if first == last else "taken as changes %d to %d" % (first, last)


def unready(end, switch):
    """Why a controller has nothing ready for a switch."""
    held = [change for change in end.undone() if change[3] == switch]
    if not held:
        return "it has no undone change for that switch"
    number, first, flow = held[0][:3]
    other = next(change for change in end.undone() if change[1:3] == (first, flow) and change[0] < number)
    return "change %d waits for change %d on switch %d" % (number, other[0], other[3])


def came(call, answer, last, unknown):
    """What came of it; `last` is the last number that the controller had given before, and has given after it."""
    if answer == 12:
        return "refused, there is no " + unknown
    if answer == 0:
        return taken(last[0] + 1, last[1]) if call == "decide" else DONE.get(call, "held")
    if answer == 26 and call == "deliver":
        return "refused, nothing is kept in that place"
    return {1: "applied", 2: "a repeat, nothing changed"}.get(answer) or "refused, " + MEANINGS[answer]


def giver(share):
    """The pair whose key gives a share's bytes their tag, in words."""
    for controller in range(16):
        for switch in range(16):
            if is_sealed(key(controller, switch), share):
                return ", tagged with the key of controller %d and switch %d" % (controller, switch)
    return ""


def bytes_at_hand(world, call, given):
    """The message that a record of a call delivers or keeps, before it is carried out."""
    if call == "raw":
        return given[1]
    if call == "deliver":
        kept = world.places[given[0]] if given[0] < 64 else None
        return kept and kept[1]
    if call in ("send", "keep") and world.known(given[1], given[0]):
        answer, share = world.made(given[0], given[1])
        return share if answer == 0 else None
    return None


def reached(call, given, kept):
    """The controller and the switch that a record names; of a kept share, its own switch."""
    if call in ("report", "raw"):
        return given[1] if call == "report" else 0, given[0]
    if call == "deliver":
        return 0, kept
    return given[0], given[1]


def wished(world, call, answer, switch, share, before, message):
    """What is told of a share beside the figure; `before` was held from its sender, as (number, rule), or none."""
    number, rule = share[1], share[2]
    if answer == 1:
        return ", " + route(rule)
    if call == "keep" or answer > 2:
        wish = "; the share asks for change %d, %s" % (number, route(rule))
        return wish + (giver(message) if answer == 14 and call == "raw" else "")
    agreeing = sum(slot == (number, rule) for slot in world.switches[switch].slots)
    told = "; change %d, %s, has %d of %d controllers" % (number, route(rule), agreeing, (world.n - 1) // 3 + 1)
    replaces = before is not None and before[0] != number
    return told + (", in place of this one's change %d" % before[0] if replaces else "")


def words(world, s):
    """The record that s begins with, carried out: its length, or none where the run stops, its answer and figure, and
    its words."""
    found = record_at(SCRIPT, s)
    if found in (30, 31):
        _, answer, figure = world.record(s)
        return None, answer, figure, "here the script stops: refused, " + MEANINGS[answer]
    call, _, given = found
    kept = world.places[given[0]] if call == "deliver" and given[0] < 64 else None
    controller, switch = reached(call, given, kept[0] if kept else 16)
    known = world.known(switch, controller) and (call != "keep" or given[2] < 64)
    message = bytes_at_hand(world, call, given) if known else None
    share = fields(message)
    if share and call == "deliver":
        share += (switch,)
    end = world.controllers[controller] if known else None
    last, before = end.last if end else 0, None
    if share and share[0] < 16:
        before = world.switches[switch].slots[share[0]]
    why = unready(end, switch) if known and call in ("send", "keep") and message is None else None
    sender = share[0] if share else controller
    unknown = "switch %d" % switch if sender < world.n else "controller %d" % sender
    length, answer, figure = world.record(s)
    told = "%s: %s" % (asked(call, given, share), came(call, answer, (last, end.last if end else 0), unknown))
    if why:
        told += ": " + why
    if known and call in ("decide", "report"):
        told += "; controller %d has %s" % (controller, undone(figure))
    elif known:
        told += "; " + at(switch, figure)
    if share:
        told += wished(world, call, answer, switch, share, before, message)
    return length, answer, figure, told


def fault(s, answer):
    """A fault before the script; of a playbook, the first record that leaves no good beginning."""
    told = "0 %d 0  before the script: refused, %s" % (answer, surveys.words(s[:ROOM], answer, ROOM))
    return told + (", in the playbook's record %d" % surveys.ordinal(s, answer) if surveys.has_record(answer) else "")


def left(world, end):
    """A controller's undone changes; those that its switch has made already say so."""
    made = [number <= world.switches[switch].last for number, _, _, switch, _ in end.undone()]
    lines = ["controller %d has %s" % (end.id, undone(end.count))]
    if not end.count and not any(end.serials):
        lines[0] += ", and took no decision"
    if made == [True]:
        lines[0] += ", which is made"
    elif any(made):
        lines[0] += ", %s of them made" % ("all" if all(made) else sum(made))
    lines[0] += ":" if made else ""
    for is_made, (number, _, flow, switch, rule) in zip(made, end.undone()):
        told = ": made; controller %d was not told" % end.id if is_made else ""
        lines.append("  change %d, %s, on switch %d, flow %d%s" % (number, route(rule), switch, flow, told))
    return lines


def ends(world):
    """The ends after the last record."""
    lines, fresh = [], []
    for end in world.switches:
        if end.last == 0 and not any(end.slots):
            fresh.append(end.id)
            continue
        lines.append(at(end.id, end.last))
        if end.last:
            lines[-1] += ":" if end.entries else ", with no entry"
        lines += ["  " + route(entry) for entry in end.entries]
        lines += [
            "  holds from controller %d: change %d, %s" % (c, slot[0], route(slot[1]))
            for c, slot in enumerate(end.slots) if slot
        ]
    if fresh:
        lines.append("no change was made on " + named("switch", fresh))
    for end in world.controllers:
        lines += left(world, end)
    return lines


def plans(book):
    lines = []
    for switch, cause, first, count in book.plans[:book.planned]:
        lines.append("when switch %d tells of cause %d:%s" % (switch, cause, "" if count else " no change"))
        lines += ["  flow %d, switch %d: %s" % (f, s, route(r)) for f, s, r in book.changes[first:first + count]]
    return lines


def explain(s):
    answer, world, script = begun(s)
    if answer != 0:
        return [fault(s, answer)]
    quorum = (world.n - 1) // 3 + 1
    lines = ["%d controller%s; a change needs %d of them" % (world.n, "s" if world.n > 1 else "", quorum), ""]
    lines += plans(world.controllers[0].book) + [""]
    count = 0
    while script:
        count += 1
        length, answer, figure, told = words(world, script)
        lines.append("%d %d %d  %s" % (count, answer, figure, told))
        script = script[length:] if length else b""
    return lines + [""] + ends(world) + [""] + verdict(s)


def text(name):
    with open(name, "rb") as file:
        return "".join(line + "\n" for line in explain(file.read())).encode()


def main():
    if len(sys.argv) == 2:
        sys.stdout.buffer.write(text(sys.argv[1]))
        return
    if len(sys.argv) < 4 or sys.argv[1] != "compare":
        sys.exit(__doc__)
    wrong = []
    for name in sys.argv[3:]:
        with open(name, "rb") as file:
            if subprocess.run([sys.argv[2]], stdin=file, stdout=subprocess.PIPE).stdout != text(name):
                wrong.append("%s is explained otherwise than computed" % name)
    sys.exit("\n".join(wrong) or 0)


if __name__ == "__main__":
    main()
