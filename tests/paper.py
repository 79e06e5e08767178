"""What the other scripts share: document 01's keys, tags, messages, records and rules, and the cases of a test program
with the lines it must print. Nothing here is taken from the crates."""
import hashlib
import hmac
import struct
import sys

LARGEST = 4294967295
# Bytes in a key, in a tag, and in the longest frame of the test programs (tests/DRIVE.md).
KEY_LENGTH, TAG_LENGTH, FRAME = 32, 16, 64


def well_formed(prefix, length):
    return length <= 32 and prefix % (1 << (32 - length)) == 0


# Keys and tags

def key(controller, switch):
    return bytes([controller, switch]) + bytes(KEY_LENGTH - 2)


def switch_keys(switch, n):
    """A switch's key store, for n controllers."""
    return b"".join(key(controller, switch) for controller in range(n))


def controller_keys(controller, count=16):
    """A controller's key store."""
    return b"".join(key(controller, switch) for switch in range(count))


def key_at(keys, end):
    return keys[KEY_LENGTH * end:KEY_LENGTH * end + KEY_LENGTH]


def tag(secret, body):
    return hmac.new(secret, body, hashlib.sha256).digest()[:TAG_LENGTH]


def sealed(secret, body):
    return body + tag(secret, body)


def is_sealed(secret, s):
    return len(s) >= TAG_LENGTH and s == sealed(secret, s[:-TAG_LENGTH])


# Messages

class Kind:
    """A kind of message: its first byte, the form of its bytes before the tag, how many these are, and its length."""

    def __init__(self, number, form):
        self.number, self.form, self.body = number, form, struct.calcsize(form)
        self.length = self.body + TAG_LENGTH

    def made(self, secret, *fields):
        return sealed(secret, struct.pack(self.form, self.number, *fields))

    def fields(self, s):
        """Those behind the kind."""
        return struct.unpack(self.form, s[:self.body])[1:]


# Switch, controller, serial, cause; controller, switch, number, prefix, length, port; switch, controller, number.
EVENT, SHARE, ACKNOWLEDGEMENT = Kind(1, ">BBBIB"), Kind(2, ">BBBIIBH"), Kind(3, ">BBBI")


def event(switch, controller, serial, cause, secret=None):
    return EVENT.made(secret or key(controller, switch), switch, controller, serial, cause)


def share(controller, switch, number, rule, secret=None):
    return SHARE.made(secret or key(controller, switch), controller, switch, number, *rule)


def acknowledgement(switch, controller, number, secret=None):
    return ACKNOWLEDGEMENT.made(secret or key(controller, switch), switch, controller, number)


def unwritten():
    """A frame before a call; all its bytes are shown, however many are lent."""
    return bytearray([0xEE]) * FRAME


def put(frame, offset, message):
    frame[offset:offset + len(message)] = message


# Records of a playbook and of a script, by their names: the kind, and the form of the fields behind it.

PLAYBOOK = {"plan": (0x11, ">BB"), "change": (0x12, ">BBIBH"), "end": (0x13, "")}
SCRIPT = {
    "decide": (0x21, ">BBIB"),
    "send": (0x22, ">BB"),
    "report": (0x23, ">BB"),
    "raw": (0x24, ">B%ds" % SHARE.length),
    "keep": (0x25, ">BBB"),
    "deliver": (0x26, ">B"),
}


def record(name, *fields):
    kind, form = PLAYBOOK.get(name) or SCRIPT[name]
    return bytes([kind]) + struct.pack(form, *fields)


def record_at(records, s):
    """The record that s begins with, its name, length and fields; or 31 for an unknown kind, and 30 where it is cut."""
    for name, (kind, form) in records.items():
        length = 1 + struct.calcsize(form)
        if s[0] == kind:
            return (name, length, struct.unpack(form, s[1:length])) if length <= len(s) else 30
    return 31


def read_first(s):
    """A playbook at the front of s: the number, the bytes used, the plans (switch, cause, first, count) and changes."""
    plans, changes, at = [], [], 0

    def refused(k):
        return k, 0, [], []

    while True:
        found = record_at(PLAYBOOK, s[at:]) if at < len(s) else 30
        if found in (30, 31):
            return refused(found)
        name, size, fields = found
        at += size
        if name == "end":
            return 0, at, plans, changes
        if name == "plan":
            switch, cause = fields
            if switch > 15:
                return refused(12)
            if any((p[0], p[1]) == (switch, cause) for p in plans):
                return refused(35)
            if len(plans) + 1 > 64:
                return refused(36)
            plans.append([switch, cause, len(changes), 0])
        else:
            flow, switch, prefix, length, port = fields
            if switch > 15:
                return refused(12)
            if not plans:
                return refused(34)
            if not well_formed(prefix, length):
                return refused(15)
            if len(changes) + 1 > 512 or plans[-1][3] + 1 > 32:
                return refused(36)
            seen = {(c[2], c[3]) for c in changes if c[1] == switch} | {(prefix, length)}
            if len(seen) > 64:
                return refused(37)
            changes.append(fields)
            plans[-1][3] += 1


# Calls

class Calls:
    """Calls of the program drive at one end: its state, the script so far, and the lines that it must print."""

    def __init__(self, long, end, state):
        self.long, self.end, self.state = long, end, state
        self.script, self.lines = b"", []

    def some(self, few, many):
        """What every run has, and what only the long one has."""
        return tuple(few) + (tuple(many) if self.long else ())

    def call(self, letter, body):
        self.script += struct.pack(">BBH", ord(letter), 0, len(body)) + body

    def line(self, text):
        self.lines.append("%s 0 %s" % (self.end, text))

    def store(self, keys):
        self.call("K" if self.end == "switch" else "k", keys)
        self.keys = keys
        self.line("keys %d" % len(keys))

    # What a state is made to be: the fields that both ends have.

    def alter(self, body):
        self.call("X" if self.end == "switch" else "x", body)
        self.line("altered")

    def set_id(self, id):
        self.alter(bytes([0, id]))
        self.state.id = id

    def set_n(self, n):
        self.alter(bytes([1, n]))
        self.state.n = n

    def set_last(self, last):
        self.alter(struct.pack(">BI", 2, last))
        self.state.last = last


def tell(doc, made):
    """The part that the command line asks for, of the calls that `made` makes: few, or long."""
    part, kind = (sys.argv + ["", ""])[1:3]
    if part not in ("stdin", "stdout") or kind not in ("", "long"):
        sys.exit(doc)
    calls = made(kind == "long")
    if part == "stdin":
        sys.stdout.buffer.write(calls.script)
    else:
        print("\n".join(calls.lines))
