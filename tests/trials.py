"""Cases for the program trials, and what it must print, worked out from document 01 with Python's own library.

    python3 tests/trials.py stdin     the cases
    python3 tests/trials.py stdout    the lines

Nothing here is taken from the crates. Names and numbers are document 01's.
"""
import hmac
import random
import struct
import sys

from paper import (ACKNOWLEDGEMENT, EVENT, FRAME, KEY_LENGTH, SHARE, TAG_LENGTH, is_sealed, put, read_first, record,
                   sealed, tag, unwritten)

# The key of every message here.
KEY = bytes([0x0B]) * KEY_LENGTH
KINDS = {kind.number: kind for kind in (EVENT, SHARE, ACKNOWLEDGEMENT)}
NAMES = {1: "event", 2: "share", 3: "acknowledgement"}


# Messages

def message(kind, *fields):
    return kind.made(KEY, *fields)


def received(end, s):
    kinds = {kind.length: kind for kind in ((SHARE,) if end == "S" else (EVENT, ACKNOWLEDGEMENT))}
    if len(s) not in kinds:
        text, answer = "refused 10", 10
    elif s[0] != kinds[len(s)].number:
        text, answer = "refused 11", 11
    else:
        name, fields = NAMES[s[0]], kinds[len(s)].fields(s)
        text, answer = name + " %d" * len(fields) % fields, 0
    return "%s answer %d%s" % (text, answer, " sealed" if is_sealed(KEY, s) else " not sealed")


def written(length, offset, fields):
    """fields: kind, then the message's own; a share's action is 0 (remove) or 1 (set), then a port."""
    frame, answer, (number, *fields) = unwritten(), 0, fields
    kind = KINDS.get(number)
    if kind is SHARE:
        *fields, action, port = fields
        answer = 15 if action == 1 and port == 0 else 0
        fields.append(port if action else 0)
    if answer == 0 and offset + (kind.length if kind else 0) > length:
        answer = 25
    if answer == 0 and kind is None:
        answer = 26
    if answer == 0:
        put(frame, offset, message(kind, *fields))
    return "written %d %s" % (answer, frame.hex())


def write_case(length, offset, fields):
    form = {1: ">BBIB", 2: ">BBIIBBH", 3: ">BBI"}.get(fields[0], ">B")
    return struct.pack(">BQB", length, offset, fields[0]) + struct.pack(form, *fields[1:])


# Playbooks

def read_whole(s):
    r = read_first(s)
    return (38, 0, [], []) if r[0] == 0 and r[1] != len(s) else r


def outcome(r):
    return "%d %d %d %d stored" % (r[0], r[1], len(r[2]), len(r[3]))


def shown(switch, cause, s):
    answer, used, plans, changes = read_whole(s)
    found = [p for p in plans if (p[0], p[1]) == (switch, cause)] or [[switch, cause, 0, 0]]
    line = "store"
    line += "".join(" plan %d %d %d %d" % tuple(p) for p in plans)
    line += "".join(" change %d %d %d %d %d" % c for c in changes)
    return line + " finds plan %d %d %d %d" % tuple(found[0])


def plan(switch, cause):
    return record("plan", switch, cause)


def change(flow, switch, prefix, length, port):
    return record("change", flow, switch, prefix, length, port)


END = record("end")


def prefix16(i):
    return (i << 16, 16)


# The cases: a letter, bytes, and the line

def cases():
    for letter, s in messages():
        yield letter, s, received(letter, s)
    for args in writings():
        yield "W", write_case(*args), written(*args)
    for s in playbooks():
        yield "P", s, "whole %s first %s" % (outcome(read_whole(s)), outcome(read_first(s)))
    for switch, cause, s in shows():
        yield "L", bytes([switch, cause]) + s, shown(switch, cause, s)
    for what, n, s, fine in damages():
        yield "D", bytes([what, n]) + s, "damaged %d%s" % (what, " stored" if fine else " not stored")
    yield "Z", b"", "unknown case"


CUT = b"S\x00\x05abcd"  # one byte short: "cut case"


def messages():
    good = [
        ("C", message(EVENT, 5, 2, 7, 9)), ("C", message(EVENT, 15, 0, 0xFFFFFFFF, 255)),
        ("C", message(EVENT, 255, 255, 0, 0)),
        ("S", message(SHARE, 3, 14, 0x01020304, 0x0A000000, 8, 3)), ("S", message(SHARE, 0, 0, 0, 0, 0, 0)),
        ("S", message(SHARE, 255, 255, 0xFFFFFFFF, 0xFFFFFFFF, 255, 0xFFFF)),
        ("S", message(SHARE, 1, 2, 3, 0x0A000001, 8, 256)),
        ("C", message(ACKNOWLEDGEMENT, 5, 2, 0x01020304)), ("C", message(ACKNOWLEDGEMENT, 255, 255, 0xFFFFFFFF)),
    ]
    yield from good
    # each good message at the other end, and with each other kind
    for end, s in good[:1] + good[3:4] + good[7:8]:
        yield "S" if end == "C" else "C", s
        for kind in (0, 1, 2, 3, 4, 0x11, 255):
            yield end, bytes([kind]) + s[1:]
    # every length around those that are expected, and none at all
    most = SHARE.length
    for n in (0, 1, TAG_LENGTH - 1, TAG_LENGTH, TAG_LENGTH + 1, ACKNOWLEDGEMENT.length - 1, ACKNOWLEDGEMENT.length,
              EVENT.length, EVENT.length + 1, most - 1, most, most + 1, most + 2, 2 * most):
        for kind in (1, 2, 3):
            yield "S", bytes([kind]) * n
            yield "C", bytes([kind]) * n
    # one bit altered, at each byte
    for end, s in good[:1] + good[3:4] + good[7:8]:
        for i in range(len(s)):
            yield end, s[:i] + bytes([s[i] ^ (1 << i % 8)]) + s[i + 1:]
    # the tag of other bytes, of all but the last byte, and of another key
    body = message(EVENT, 5, 2, 7, 9)[:EVENT.body]
    yield "C", body + tag(KEY, body[1:])
    yield "C", body + tag(KEY, body[:-1])
    yield "C", sealed(KEY[1:], body)
    yield "C", body + hmac.digest(KEY, body, "sha256")[-TAG_LENGTH:]


def writings():
    """The frame's length, the offset, and the kind with the fields."""
    for fields in ((1, 5, 2, 0x01020304, 9), (2, 3, 14, 0x01020304, 0x0A0B0C00, 24, 1, 0x0102),
                   (2, 3, 14, 0xFFFFFFFF, 0x0A000000, 8, 0, 77), (3, 5, 2, 0xFFFFFFFF)):
        size = KINDS[fields[0]].length
        last = FRAME - size
        for offset in (0, 1, last):
            yield FRAME, offset, fields
        yield size, 0, fields
        # one byte too few, at the start and at the end; past the end; the largest offsets
        yield size - 1, 0, fields
        for offset in (last + 1, FRAME - 1, FRAME, FRAME + 1, 2**32, 2**64 - size, 2**64 - 1):
            yield FRAME, offset, fields
        yield 0, 0, fields
    # a malformed rule is written as it is; a set of port 0 is not, wherever it is put; a refusal is nothing to send, if
    # its offset is not past the frame
    yield FRAME, 3, (2, 0, 0, 1, 0x0A000001, 33, 1, 5)
    for offset in (0, FRAME - 8, FRAME, FRAME + 1, 2**64 - 1):
        yield FRAME, offset, (2, 3, 14, 1, 0, 0, 1, 0)
        yield FRAME, offset, (4, 10)
        yield FRAME, offset, (4, 0)


def fullest():
    """64 plans, 512 changes of 64 prefixes on 16 switches: 5,313 bytes."""
    s = b""
    for i in range(64):
        s += plan(i % 16, i)
        for j in range(8):
            s += change(j, (i + j) % 16, *prefix16((8 * i + j) % 64), 1 + j)
    return s + END


def keys_on_one(n, repeat=0, port=1):
    """n changes on switch 7, each with another prefix, then some again; plans of 32."""
    s = b""
    for i in range(n + repeat):
        if i % 32 == 0:
            s += plan(0, i // 32)
        s += change(0, 7, *prefix16(i % n), port)
    return s


def playbooks():
    ok = change(1, 2, 0x0A000000, 8, 3)
    yield from (b"", b"\x13", b"\x13\x13", b"\x00", b"\x14", b"\xff", b"\x11", b"\x11\x05", b"\x12", b"\x13\x00")
    two = bytes.fromhex("110501 1200020A000000080003 1200050A000000080002 13")
    yield two
    for n in range(len(two)):
        yield two[:n]
    yield two + b"\x00"
    # each question asked by a record that passes those before it and fails some after it
    yield change(0, 16, 0, 33, 0) + END                     # 12 before 34 and 15
    yield change(0, 15, 0, 33, 0) + END                     # 34 before 15
    yield plan(0, 0) + change(0, 15, 0, 33, 0) + END        # 15
    yield plan(0, 0) + change(0, 15, 0x0A000001, 8, 0) + END
    yield plan(0, 0) + change(0, 15, 1, 0, 0) + END
    yield plan(0, 0) + change(0, 15, 0xFFFFFFFF, 32, 65535) + END
    yield plan(0, 0) + change(0, 15, 0, 0, 0) + END
    yield plan(16, 0) + END
    yield plan(255, 0) + END
    yield plan(15, 255) + plan(15, 254) + plan(14, 255) + END
    yield plan(15, 255) + plan(14, 255) + plan(15, 255) + END
    yield plan(16, 0)[:2]                                   # 30 before 12
    plans64 = b"".join(plan(i // 32, i % 32) for i in range(64))
    yield plans64 + END
    yield plans64 + plan(2, 0) + END                        # 36
    yield plans64 + plan(1, 31) + END                       # 35 before 36
    yield plans64 + plan(16, 0) + END                       # 12 before 35
    yield plan(0, 0) + ok * 32 + END
    yield plan(0, 0) + ok * 33 + END                        # 36: 33 in a plan
    yield plan(0, 0) + ok * 32 + change(0, 16, 0, 0, 0)     # 12 before 36
    yield plan(0, 0) + ok * 32 + change(0, 0, 0, 33, 0)     # 15 before 36
    yield plan(0, 0) + ok * 32 + plan(0, 1) + ok + END
    changes512 = b"".join(plan(0, i) + ok * 32 for i in range(16))
    yield changes512 + END
    yield changes512 + plan(0, 16) + ok + END               # 36: 513
    yield keys_on_one(64) + END
    yield keys_on_one(65) + END                             # 37
    yield keys_on_one(64, 40) + END                         # seen before: counted once
    yield keys_on_one(64) + change(0, 7, *prefix16(64), 0) + END    # 36 before 37: the plan is full
    yield keys_on_one(64) + plan(1, 0) + change(0, 7, *prefix16(64), 0) + END   # removals count
    yield keys_on_one(64, 0, 0) + plan(1, 0) + change(0, 7, *prefix16(64), 5) + END
    yield keys_on_one(64) + plan(1, 0) + change(0, 7, 0, 17, 5) + END   # another length is another one
    yield keys_on_one(64) + plan(1, 0) + change(0, 6, *prefix16(64), 5) + END
    yield fullest()
    yield fullest() + b"\x11"
    rng = random.Random(13)
    for _ in range(150):
        yield scrambled(rng)


def scrambled(rng):
    """A short playbook of random records, sometimes cut or with a byte altered."""
    s = b""
    for _ in range(rng.randrange(12)):
        if rng.randrange(3) == 0:
            s += plan(rng.choice((0, 1, 15, 16)), rng.randrange(3))
        else:
            length = rng.choice((0, 8, 16, 31, 32, 33))
            prefix = rng.choice((0, 0x0A000000, 0x0A0B0000, 0xFFFFFFFE, 0xFFFFFFFF))
            s += change(rng.randrange(256), rng.choice((0, 15, 15, 16)), prefix, length, rng.choice((0, 1, 65535)))
    if rng.randrange(4):
        s += END
    if s and rng.randrange(4) == 0:
        s = s[:rng.randrange(len(s))]
    if s and rng.randrange(6) == 0:
        i = rng.randrange(len(s))
        s = s[:i] + bytes([rng.randrange(256)]) + s[i + 1:]
    return s


def shows():
    two = bytes.fromhex("110501 1200020A000000080003 1200050A000000080002 13")
    yield 5, 1, two
    yield 5, 2, two
    more = plan(1, 1) + change(9, 3, 0, 0, 0) + plan(1, 2) + plan(2, 1) + change(8, 15, 0xFFFFFFFF, 32, 65535) + END
    yield 1, 1, more
    yield 1, 2, more
    yield 2, 1, more
    yield 2, 2, more
    yield 1, 1, more + END


def damages():
    three = (plan(1, 1) + change(1, 2, 0, 0, 1) * 2 + plan(1, 2) + change(1, 3, 0, 0, 1) + plan(3, 0)
             + change(1, 3, 0, 0, 0) + END)
    yield 0, 0, three, True
    for what in range(1, 14):
        yield what, 0, three, False
    # 96 changes in three plans, the first n of them given n different prefixes on one switch
    ok = change(0, 7, *prefix16(0), 1)
    many = b"".join(plan(0, i) + ok * 32 for i in range(3)) + END
    for n in (1, 64, 65, 96):
        yield 0, n, many, n <= 64


def main():
    if sys.argv[1:] not in (["stdin"], ["stdout"]):
        sys.exit(__doc__)
    for letter, s, line in cases():
        if sys.argv[1] == "stdin":
            sys.stdout.buffer.write(letter.encode() + struct.pack(">H", len(s)) + s)
        else:
            print(line)
    if sys.argv[1] == "stdin":
        sys.stdout.buffer.write(CUT)
    else:
        print("cut case")


if __name__ == "__main__":
    main()
