"""FLOW_MODs, computed from request N1 and the OpenFlow Switch Specification 1.3.5 with Python's own library: the
message of a number and a rule, its writing into a frame, and those of a switch in a rehearsal.

    python3 tests/flowmods.py stdin [long]            calls for the program drive, a few or many
    python3 tests/flowmods.py stdout [long]           their lines
    python3 tests/flowmods.py bytes SWITCH FILE       the FLOW_MODs of what a switch applied in a rehearsal
    python3 tests/flowmods.py words SWITCH FILE       the same in words
    python3 tests/flowmods.py ovs SWITCH FILE         the same as `ovs-ofctl ofp-parse` prints it
    python3 tests/flowmods.py tshark SWITCH FILE      the fields that tests/openflow.sh has tshark print
    python3 tests/flowmods.py flows SWITCH FILE       the switch's table at the end, as Open vSwitch prints flows
    python3 tests/flowmods.py cases                   which files of tests/flowmods are not what is computed here
    python3 tests/flowmods.py compare PROGRAM_DIR     which cases of tests/cases the programs take otherwise, up to ten

FILE is a rehearsal in the notation or in bytes, - is standard input. Nothing here is taken from the crates. Names in
capitals are the standard's. A rule is (prefix, length, port), as in tests/duties.py: port 0 removes, None sets port 0.
"""
import glob
import itertools
import os
import random
import re
import struct
import subprocess
import sys

from duties import rule_good
from notation import assemble
from paper import LARGEST, put, tell
from rehearsals import HERE, cases, ended, held

KEPT = os.path.join(HERE, "flowmods")

# 7.1: version and type of the header.
VERSION, OFPT_FLOW_MOD = 0x04, 14
# 7.3.4.1: commands, and what stands for no buffer, any port and any group.
OFPFC_ADD, OFPFC_DELETE_STRICT = 0, 4
OFP_NO_BUFFER, OFPP_ANY, OFPG_ANY = 0xFFFFFFFF, 0xFFFFFFFF, 0xFFFFFFFF
# 7.2.3: matches and their fields.
OFPMT_OXM, OFPXMC_OPENFLOW_BASIC, OFPXMT_OFB_ETH_TYPE, OFPXMT_OFB_IPV4_DST = 1, 0x8000, 5, 12
# 7.2.4, 7.2.5: instructions and actions.
OFPIT_APPLY_ACTIONS, OFPAT_OUTPUT = 4, 0
ETH_TYPE_IPV4 = 0x0800


# The message

def oxm(field, has_mask, payload):
    """7.2.3.2: class 16 bits, field 7, whether there is a mask 1, the payload's length 8."""
    return struct.pack(">HBB", OFPXMC_OPENFLOW_BASIC, field << 1 | has_mask, len(payload)) + payload


def mask(length):
    return LARGEST - (LARGEST >> length)


def match(prefix, length):
    """7.2.3: its length counts type, length and fields; zeros behind them fill it up to a multiple of 8."""
    fields = oxm(OFPXMT_OFB_ETH_TYPE, 0, struct.pack(">H", ETH_TYPE_IPV4))
    if length == 32:
        fields += oxm(OFPXMT_OFB_IPV4_DST, 0, struct.pack(">I", prefix))
    elif length > 0:
        fields += oxm(OFPXMT_OFB_IPV4_DST, 1, struct.pack(">II", prefix, mask(length)))
    whole = struct.pack(">HH", OFPMT_OXM, 4 + len(fields)) + fields
    return whole + bytes(-len(whole) % 8)


def apply_output(port):
    """7.2.4: type, length, 4 zeros, actions. 7.2.5: type, length, port, max_len, 6 zeros."""
    action = struct.pack(">HHIH6x", OFPAT_OUTPUT, 16, port, 0)
    return struct.pack(">HH4x", OFPIT_APPLY_ACTIONS, 8 + len(action)) + action


def flow_mod(number, rule):
    """7.3.4.1, behind 7.1's header: cookie, its mask, table, command, two timeouts, priority, buffer, out port, out
    group, flags, 2 zeros, match, instructions."""
    prefix, length, port = rule
    command = OFPFC_ADD if port else OFPFC_DELETE_STRICT
    body = struct.pack(">QQBBHHHIIIH2x", 0, 0, 0, command, 0, 0, length, OFP_NO_BUFFER, OFPP_ANY, OFPG_ANY, 0)
    body += match(prefix, length) + (apply_output(port) if port else b"")
    return struct.pack(">BBHI", VERSION, OFPT_FLOW_MOD, 8 + len(body), number) + body


def written(frame, offset, number, rule):
    """The answer, the length written, and the frame after the call."""
    if not rule_good(rule):
        return 15, 0, frame
    message = flow_mod(number, rule)
    if offset + len(message) > len(frame):
        return 25, 0, frame
    after = bytearray(frame)
    put(after, offset, message)
    return 0, len(message), bytes(after)


# A switch in a rehearsal

def applied(s):
    """For the input of the programs, a switch and a rehearsal: the number that refuses it, or 0, and the pairs of
    number and rule that the switch applied."""
    if s and s[0] > 15:
        return 12, []
    refused, rehearsal, _ = ended(s[1:])
    return refused, [] if refused else of_switch(rehearsal, s[0])


def of_switch(rehearsal, switch):
    return [(number, rule) for at, number, rule in rehearsal.applied if at == switch]


def in_bytes(mods):
    return b"".join(flow_mod(*mod) for mod in mods)


def dotted(address):
    return "%d.%d.%d.%d" % tuple(struct.pack(">I", address))


def shown(prefix, length):
    return "%s/%d" % (dotted(prefix), length)


def in_words(mods):
    lines = []
    for number, (prefix, length, port) in mods:
        what = "add %s to port %d" % (shown(prefix, length), port) if port else "delete " + shown(prefix, length)
        size = len(flow_mod(number, (prefix, length, port)))
        lines.append("change %d: %s (priority %d, %d bytes)\n" % (number, what, length, size))
    return "".join(lines).encode()


def streams(refused, mods):
    """What flowmods writes to standard output and standard error, and what flowlist writes."""
    fault = b"fault %d\n" % refused
    return (b"", fault, fault) if refused else (in_bytes(mods), b"", in_words(mods))


# Calls of the program drive

def called(size, offset, number, prefix, length, kind, port):
    """A call's answer, the length written, and the frame, whose bytes are all 0xEE before; a kind of 0 removes."""
    return written(b"\xEE" * size, offset, number, (prefix, length, (port or None) if kind else 0))


class Writings:
    """Calls with the letter F, what they ask for, and their lines."""

    def __init__(self):
        self.script, self.asked, self.lines = b"", [], []

    def call(self, body, end=0):
        """Bytes past the body count as 0; those behind its fields are not looked at."""
        self.script += struct.pack(">BBH", ord("F"), end, len(body)) + body
        self.asked.append(struct.unpack(">BQIIBBH", (body + bytes(21))[:21]))
        answer, _, frame = called(*self.asked[-1])
        self.lines.append("flowmod %d %s" % (answer, frame.hex() or "-") if end <= 15 else "unknown end")

    def write(self, size, offset, number, prefix, length, kind, port, end=0):
        self.call(struct.pack(">BQIIBBH", size, offset, number, prefix, length, kind, port), end)


# Prefix, length, kind, port: every size of a message, both forms of its destination, and fields at their ends.
REMOVALS = ((0, 0, 0, 0), (0x80000000, 1, 0, 0), (0x0A010000, 16, 0, 0), (0xFFFFFFFE, 31, 0, 0), (LARGEST, 32, 0, 0))
SETS = ((0, 0, 1, 65535), (0, 1, 1, 1), (0x0A010000, 16, 1, 3), (0xFFFFFFFE, 31, 1, 65280), (0x0A010203, 32, 1, 256))
MALFORMED = ((0, 33, 0, 0), (0, 255, 1, 1), (1, 31, 1, 1), (0x0A010000, 15, 0, 0), (1, 0, 0, 0), (0x0A010000, 16, 1, 0),
             (0, 0, 255, 0))


def size_of(rule):
    return {(0, 0): 64, (0, 1): 72, (1, 0): 88, (1, 1): 96}[rule[2] > 0, rule[1] > 0]


def sizes(w):
    """Each form in a frame that it fills, and in one that is a byte too short; the offset moves both."""
    for number, rule in zip((0, 1, 7, 0x01020304, LARGEST) * 2, REMOVALS + SETS):
        w.write(size_of(rule), 0, number, *rule)
        w.write(size_of(rule) - 1, 0, number, *rule)
    for rule in (REMOVALS[0], REMOVALS[2], SETS[0], SETS[2]):
        for size, offset in ((size_of(rule) + 1, 1), (255, 255 - size_of(rule)), (255, 256 - size_of(rule))):
            w.write(size, offset, 9, *rule)
    # any byte but 0 sets; a removal has no port
    w.write(96, 0, 9, 0x0A010000, 16, 255, 3)
    w.write(96, 0, 9, 0x0A010000, 16, 0, 3)


def refusals(w):
    """15 comes before 25; offsets at the end and past it, and sums that wrap."""
    for rule in MALFORMED:
        w.write(255, 0, 9, *rule)
        w.write(0, 2 ** 64 - 1, 9, *rule)
    for rule in (REMOVALS[0], SETS[2]):
        for size in (0, 96, 255):
            for offset in (size, size + 1, 2 ** 32, 2 ** 64 - size_of(rule), 2 ** 64 - 1):
                w.write(size, offset, 9, *rule)


def bodies(w):
    """Ends, and bodies that are shorter and longer than their fields."""
    for end in (15, 16, 255):
        w.write(96, 0, 9, *SETS[2], end=end)
    body = struct.pack(">BQIIBBH", 96, 0, 9, *SETS[2])
    for given in (b"", body[:1], body[:13], body[:18], body[:19], body[:20], body + b"\xFF\xFF"):
        w.call(given)


def many(w):
    """Every length in frames about as long as its message; and random calls, good ones among them."""
    for length in range(34):
        for kind in (0, 1):
            rule = (mask(min(length, 32)) & 0xDEADBEEF, length, kind, 1 + 977 * length)
            for size in range(size_of(rule) - 1, size_of(rule) + 3):
                for offset in range(3):
                    w.write(size, offset, length << 24 | size, *rule)
    r = random.Random(1)
    for _ in range(1500):
        length = r.randrange(34)
        bits = r.choice((0, LARGEST, r.randrange(LARGEST)))
        prefix = bits & mask(min(length, 32)) if r.randrange(8) else bits
        size, number = r.choice((96, 255, r.randrange(256))), r.choice((0, LARGEST, r.randrange(LARGEST)))
        offset = r.choice((0, r.randrange(8), r.randrange(256), 2 ** 64 - r.randrange(1, 256), r.randrange(2 ** 64)))
        kind, port = r.choice((0, 1, 1, 255)), r.choice((0, 1, 65535, r.randrange(65536)))
        w.write(size, offset, number, prefix, length, kind, port, r.choice((0, 0, 15, 16)))


def writings(long):
    w = Writings()
    for scene in (sizes, refusals, bodies) + ((many,) if long else ()):
        scene(w)
    return w


# Files, programs and people

def is_text(s):
    """Whether a rehearsal is a text: each input with a whole playbook has a byte 0x13, which no text has."""
    return all(b in b"\t\n\r" or 32 <= b != 127 for b in s) and any(32 < b < 127 for b in s)


def rehearsal_of(s):
    """A rehearsal's bytes, of either form."""
    if is_text(s):
        s = assemble(s)
        if isinstance(s, str):
            sys.exit(s)
    return s


def flow(prefix, length, port):
    """A flow as Open vSwitch prints it; what a removal has in place of actions it calls drop."""
    to = ",nw_dst=" + shown(prefix, length) if length else ""
    return "priority=%d,ip%s actions=%s\n" % (length, to.replace("/32", ""), "output:%d" % port if port else "drop")


def flows(s):
    """The lines of `ovs-ofctl dump-flows --no-stats` for the table of a switch at a rehearsal's end, in order."""
    return "".join(sorted(flow(*entry) for entry in ended(s[1:])[1].switches[s[0]].entries)).encode()


def as_ovs(mods):
    return "".join("OFPT_FLOW_MOD (OF1.3) (xid=0x%x): %s %s" % (number, "ADD" if rule[2] else "DEL_STRICT", flow(*rule))
                   for number, rule in mods).encode()


def as_tshark(mods):
    """A line for each field, with its values in all messages that have it."""
    rules = [rule for _, rule in mods]
    fields = ([number for number, _ in mods],
              [OFPFC_ADD if port else OFPFC_DELETE_STRICT for _, _, port in rules],
              [length for _, length, _ in rules],
              [dotted(prefix) for prefix, length, _ in rules if length],
              [dotted(mask(length)) for _, length, _ in rules if 0 < length < 32],
              [port for _, _, port in rules if port])
    return "".join(" ".join(map(str, values)) + "\n" for values in fields).encode()


def misfits():
    """The files of tests/flowmods that are not what is computed; a text's first line names its switch."""
    texts = sorted(glob.glob(os.path.join(KEPT, "*.txt")))
    for path in texts:
        named = re.match(rb"# Switch (\d+): ", held(path))
        refused, mods = applied(bytes([int(named.group(1))]) + rehearsal_of(held(path)))
        out, _, words = streams(refused, mods)
        for kept, computed in ((".bin", out), (".out", words), (".ovs", as_ovs(mods)), (".tshark", as_tshark(mods))):
            beside = path[:-len(".txt")] + kept
            if (os.path.exists(beside) or kept in (".bin", ".out")) and held(beside) != computed:
                yield "%s is not what is computed" % beside
    if not texts:
        yield "no cases"


def otherwise(folder):
    """What the programs write otherwise: for every case, at the switches that applied something, the first that did
    not, and one that there is not."""
    def run(name, s):
        done = subprocess.run([os.path.join(folder, name)], input=s, capture_output=True, timeout=10, close_fds=False)
        return done.stdout, done.stderr

    for name, s, _ in cases():
        refused, rehearsal, _ = ended(s)
        busy = {at for at, _, _ in rehearsal.applied} if rehearsal else set()
        for switch in sorted(busy) + sorted(set(range(16)) - busy)[:1] + [16]:
            mods = of_switch(rehearsal, switch) if rehearsal else []
            out, errors, words = streams(12 if switch > 15 else refused, mods)
            if run("flowmods", bytes([switch]) + s) != (out, errors):
                yield "%s at switch %d: other FLOW_MODs" % (name, switch)
            if run("flowlist", bytes([switch]) + s) != (words, b""):
                yield "%s at switch %d: other words" % (name, switch)


def print_part(part, switch, file):
    """What is asked for. A refusal goes to standard error, as one of the words to standard output, and ends this with
    status 1."""
    s = bytes([int(switch)]) + rehearsal_of(sys.stdin.buffer.read() if file == "-" else held(file))
    refused, mods = applied(s)
    out, errors, words = streams(refused, mods)
    parts = {"bytes": lambda: out, "words": lambda: words, "ovs": lambda: as_ovs(mods),
             "tshark": lambda: as_tshark(mods), "flows": lambda: b"" if refused else flows(s)}
    sys.stdout.buffer.write(parts[part]())
    if part != "words":
        sys.stderr.buffer.write(errors)
    sys.exit(refused > 0)


def main():
    command, *rest = sys.argv[1:] or [""]
    if command in ("bytes", "words", "ovs", "tshark", "flows") and len(rest) == 2:
        print_part(command, *rest)
    elif command == "cases" and not rest:
        sys.exit("\n".join(misfits()) or 0)
    elif command == "compare" and len(rest) == 1:
        sys.exit("\n".join(itertools.islice(otherwise(*rest), 10)) or 0)
    else:
        tell(__doc__, writings)


if __name__ == "__main__":
    main()
