"""Calls at one switch for the program drive, and what it must print, worked out from document 01 with Python's own
library.

    python3 tests/drills.py stdin          the calls
    python3 tests/drills.py stdout         the lines
    python3 tests/drills.py stdin long     many more calls, for the compiled program
    python3 tests/drills.py stdout long    their lines

Nothing here is taken from the crates. Names and numbers are document 01's.
"""
import random
import struct

from paper import (ACKNOWLEDGEMENT, EVENT, FRAME, KEY_LENGTH, LARGEST, SHARE, TAG_LENGTH, Calls, is_sealed, key, key_at,
                   put, sealed, share, switch_keys, tell, unwritten, well_formed)


def quorum(n):
    return (n - 1) // 3 + 1


class Switch:
    """Entries are (prefix, length, port); slots are None or (number, (prefix, length, port)), port 0 removing. What only
    a damaged state can have stands in `odd`: places past the count, a number in an empty slot, a set of port 0."""

    def __init__(self, id=0, n=0):
        self.id, self.n, self.last, self.serial, self.cause = id, n, 0, 0, 0
        self.entries = []
        self.slots = [None] * 16
        self.count = None
        self.odd_entries = {}
        self.odd_slots = {}

    def good(self):
        """Question 20."""
        if not (0 <= self.id <= 15 and 1 <= self.n <= 16):
            return False
        if self.odd_entries or self.odd_slots:
            return False
        if self.count is not None and self.count != len(self.entries):
            return False
        if len(self.entries) > 64:
            return False
        keys = [e[:2] for e in self.entries]
        if keys != sorted(set(keys)):
            return False
        if not all(well_formed(p, l) and port > 0 for p, l, port in self.entries):
            return False
        if any(self.slots[self.n:]):
            return False
        return all(slot[0] > self.last for slot in self.slots if slot)

    def show(self):
        places = dict(enumerate(self.entries))
        places.update(self.odd_entries)
        count = len(self.entries) if self.count is None else self.count
        text = " state %d %d %d %d %d count %d" % (self.id, self.n, self.last, self.serial, self.cause, count)
        for i in sorted(places):
            text += " entry %d %d %d %d" % ((i,) + tuple(places[i]))
        for i in range(16):
            if i in self.odd_slots:
                text += " slot %d %s" % (i, self.odd_slots[i])
            elif self.slots[i]:
                number, (prefix, length, port) = self.slots[i]
                text += " slot %d %d %d %d %s" % (i, number, prefix, length, "set %d" % port if port else "remove")
        return text

    def receive(self, keys, s):
        if not self.good():
            return 20
        if len(keys) != KEY_LENGTH * self.n:
            return 21
        if len(s) != SHARE.length:
            return 10
        if s[0] != SHARE.number:
            return 11
        controller, switch, number, prefix, length, port = SHARE.fields(s)
        if controller >= self.n:
            return 12
        if switch != self.id:
            return 13
        if not is_sealed(key_at(keys, controller), s):
            return 14
        if not well_formed(prefix, length):
            return 15
        if number <= self.last:
            return 16
        rule, slot = (prefix, length, port), self.slots[controller]
        if slot and number < slot[0]:
            return 17
        if slot and number == slot[0] and rule != slot[1]:
            return 18
        present = any(e[:2] == rule[:2] for e in self.entries)
        if port != 0 and not present and len(self.entries) >= 64:
            return 19
        if slot == (number, rule):
            return 2
        self.slots[controller] = (number, rule)
        if len([c for c in range(self.n) if self.slots[c] == (number, rule)]) < quorum(self.n):
            return 0
        self.entries = [e for e in self.entries if e[:2] != rule[:2]]
        if port != 0:
            self.entries = sorted(self.entries + [rule])
        self.last = number
        self.slots = [slot if slot and slot[0] > number else None for slot in self.slots]
        return 1

    def raise_in_place(self, cause):
        """The event alone, of which only 27 is asked."""
        if self.serial >= LARGEST:
            return 27
        self.serial, self.cause = self.serial + 1, cause
        return 0

    def raise_event(self, cause):
        return self.raise_in_place(cause) if self.good() else 20

    def unwritable(self, keys, controller, kind, length, offset):
        """The number that refuses a writing call, or 0."""
        if not self.good():
            return 20
        if len(keys) != KEY_LENGTH * self.n:
            return 21
        if controller >= self.n:
            return 12
        if offset + kind.length > length:
            return 25
        return 26 if kind is EVENT and self.serial == 0 else 0

    def write(self, keys, kind, length, controller, offset):
        """The answer, and the frame; `kind` is that of the message to write."""
        answer, frame = self.unwritable(keys, controller, kind, length, offset), unwritten()
        if answer == 0:
            fields = (self.serial, self.cause) if kind is EVENT else (self.last,)
            put(frame, offset, kind.made(key_at(keys, controller), self.id, controller, *fields))
        return answer, frame

    def look_up(self, address):
        if not self.good():
            return "refused 20"
        found = [(l, port) for p, l, port in self.entries if address >> (32 - l) == p >> (32 - l)]
        return "port %d" % max(found)[1] if found else "nothing"


class Drill(Calls):
    """Calls at one switch."""

    def __init__(self, long):
        super().__init__(long, "switch", Switch())
        self.keys = b""

    def replied(self, word, answer, more=""):
        self.line("%s %d%s%s" % (word, answer, self.state.show(), more))
        return answer

    def setup(self, id, n):
        self.call("S", bytes([id, n]))
        good = id <= 15 and 1 <= n <= 16
        self.state = Switch(id, n) if good else Switch()
        self.replied("setup", 0 if good else 20)

    def keys_of(self, id, length):
        self.store(switch_keys(id, 17)[:length])

    def start(self, id, n):
        self.setup(id, n)
        self.keys_of(id, KEY_LENGTH * n)

    def receive(self, s):
        self.call("M", s)
        return self.replied("received", self.state.receive(self.keys, s))

    def share(self, controller, number, rule):
        return self.receive(share(controller, self.state.id, number, rule))

    def shares(self, *shares):
        for controller, number, rule in shares:
            self.share(controller, number, rule)

    def raise_event(self, cause):
        self.call("R", bytes([cause]))
        return self.replied("raised", self.state.raise_event(cause))

    def raise_in_place(self, cause):
        self.call("I", bytes([cause]))
        return self.replied("raised in place", self.state.raise_in_place(cause))

    def write(self, kind, length, controller, offset):
        self.call("E" if kind is EVENT else "A", struct.pack(">BBQ", length, controller, offset))
        answer, frame = self.state.write(self.keys, kind, length, controller, offset)
        return self.replied("written", answer, " frame " + frame.hex())

    def look_up(self, address):
        self.call("L", struct.pack(">I", address))
        found = self.state.look_up(address)
        self.line("looked up " + found)
        if self.state.good():
            self.call("T", struct.pack(">I", address))
            self.line("forwarded " + found)

    def quorum(self, n):
        self.call("Q", bytes([n]))
        self.line("quorum %d" % quorum(n))

    # What a state is made to be, without a call.

    def set_raised(self, serial, cause):
        self.alter(struct.pack(">BIB", 3, serial, cause))
        self.state.serial, self.state.cause = serial, cause

    def poke_slot(self, i, number, prefix, length, kind, port):
        self.alter(struct.pack(">BBIIBBH", 4, i, number, prefix, length, kind, port))

    def set_slot(self, i, number, rule):
        self.poke_slot(i, number, rule[0], rule[1], 1 if rule[2] else 0, rule[2])
        self.state.slots[i] = (number, rule)

    def empty_slot(self, i):
        self.poke_slot(i, 0, 0, 0, 0, 0)
        self.state.slots[i] = None

    def poke_entry(self, i, entry):
        self.alter(struct.pack(">BBIBH", 5, i, *entry))

    def poke_count(self, count):
        self.alter(bytes([6, count]))

    def set_entries(self, entries):
        for i, e in enumerate(entries):
            self.poke_entry(i, e)
        for i in range(len(entries), len(self.state.entries)):
            self.poke_entry(i, (0, 0, 0))
        self.poke_count(len(entries))
        self.state.entries = list(entries)


A, B, C = (0x0A000000, 8, 3), (0x0A010000, 16, 4), (0xC0A80000, 16, 7)
WITHDRAWAL = (0x0A000000, 8, 0)


def full(n):
    """n entries for a table, each with a prefix and port of its own."""
    return [(i << 24, 8, 100 + i) for i in range(1, n + 1)]


def every_call(d):
    """One call of each kind, and those that would be good but for the state or the key store."""
    d.share(0, 50, A)
    d.raise_event(1)
    d.write(EVENT, FRAME, 0, 0)
    d.write(ACKNOWLEDGEMENT, FRAME, 0, 0)
    d.look_up(0x0A000001)


def setups(d):
    for n in range(1, 17):
        d.quorum(n)
    for id, n in ((0, 1), (15, 16), (5, 4), (16, 4), (5, 0), (5, 17), (255, 255), (0, 0)):
        d.setup(id, n)
    d.keys_of(0, 0)
    every_call(d)


def questions(d):
    """Each question of a share, asked by a message that fails it and passes all before it."""
    d.start(5, 4)
    for length in d.some((0, EVENT.length, SHARE.length - 1, SHARE.length + 1),
                         (1, ACKNOWLEDGEMENT.length, SHARE.length + TAG_LENGTH, 300)):
        d.receive((share(0, 5, 1, A) + bytes(300))[:length])
    for kind in d.some((1, 3), (0, 4, 0x12, 0x82)):
        d.receive(sealed(key(0, 5), bytes([kind]) + share(0, 5, 1, A)[1:SHARE.body]))
    for controller in d.some((4, 255), (15, 16)):
        d.receive(share(controller, 5, 1, A, key(controller % 17, 5)))
    for switch in d.some((4, 16), (0, 6, 15, 255)):
        d.receive(share(0, switch, 1, A, key(0, 5)))
    good = share(0, 5, 1, A)
    for i in d.some((3, SHARE.length - 1), range(4, SHARE.length - 1)):
        d.receive(good[:i] + bytes([good[i] ^ 1 << i % 8]) + good[i + 1:])
    d.receive(share(0, 5, 1, A, key(1, 5)))
    for s in d.some((), (share(0, 5, 1, A, key(0, 6)), good[:SHARE.body] + bytes(TAG_LENGTH))):
        d.receive(s)
    for rule in d.some(((0x0A000001, 8, 3), (0x0A000000, 33, 3)), ((1, 0, 3), (0x0A000000, 255, 0), (0x80000000, 0, 0))):
        for number in d.some((0,), (1,)):
            d.receive(share(0, 5, number, rule))
    d.share(0, 0, A)
    d.share(0, 3, A)
    d.share(1, 3, A)
    for number in d.some((3,), (0, 1, 2)):
        d.share(2, number, B)
    d.share(0, 9, B)
    for number in d.some((8,), (4,)):
        d.share(0, number, B)
    for rule in ((0x0A020000, 16, 4), (0x0A010000, 17, 4), (0x0A010000, 16, 5), (0x0A010000, 16, 0)):
        d.share(0, 9, rule)
    d.share(0, 9, B)
    # 17 and 18 are of the sender's own slot, 19 of every share
    d.share(1, 4, C)
    d.share(1, 9, C)
    d.set_entries(full(64))
    d.share(0, 9, B)
    d.share(0, 9, (0x0A010000, 16, 0))
    if d.long:
        d.share(2, 10, (0xF0000000, 8, 1))
        d.share(0, 8, B)
        d.share(0, 9, (0x0A010000, 16, 5))


def tables(d):
    """The 64th entry is placed, a 65th new one gets 19, an old one is set anew, an absent one is removed."""
    d.start(3, 1)
    d.set_entries(full(63))
    placed, other, old = (0x7F000000, 9), (0x7F800000, 9), (0x01000000, 8)
    d.shares((0, 1, placed + (5,)), (0, 2, other + (6,)), (0, 2, placed + (7,)))
    d.shares((0, 3, old + (8,)), (0, 4, other + (0,)))
    if d.long:
        d.shares((0, 5, old + (0,)), (0, 6, other + (6,)))
        d.shares((0, LARGEST, other + (0,)), (0, LARGEST, other + (0,)))
    # a share held while there was room, and repeated when there is none
    d.start(3, 4)
    d.set_entries(full(63))
    held, sooner, removal = (0xE0000000, 8, 1), (0xE1000000, 8, 2), (0xE1000000, 8, 0)
    d.shares((0, 9, held), (0, 9, held), (1, 8, sooner), (2, 8, sooner), (0, 9, held))
    for address in (0xE0000000, 0xE1000000, 0x01FFFFFF, 0x00FFFFFF, 0xFFFFFFFF):
        d.look_up(address)
    if d.long:
        d.shares((1, 9, held), (1, 9, removal), (3, 9, removal), (0, 9, held), (0, 10, held))


def lookups(d):
    """The longest of the entries that cover an address."""
    d.start(3, 1)
    d.set_entries([(0, 0, 1), A, B, (0x0A010200, 24, 5), (0x0A010203, 32, 6)])
    for address in (0, 0x0A000000, 0x0A010000, 0x0A010200, 0x0A010203, 0x0A010204, 0xFFFFFFFF):
        d.look_up(address)


def agreement(d):
    """Different controllers are counted; slots with this number or a lower one are emptied; higher ones stay."""
    d.start(0, 16)
    for c in range(4):
        d.set_slot(c, 7, A)
    d.share(4, 7, A)
    d.share(0, 7, A)
    for c, number, rule in ((6, 6, B), (7, 8, C), (8, 7, B)):
        d.set_slot(c, number, rule)
    d.share(15, 7, A)
    d.share(5, 7, A)
    for c in d.some((), (7, 9, 10, 11, 12, 13)):
        d.share(c, 8, C)
    # a controller that goes on to a higher number no longer agrees with its lower one
    d.start(0, 4)
    d.set_slot(0, 1, A)
    d.share(0, 2, B)
    d.share(1, 1, A)
    d.share(2, 1, A)
    d.share(3, 2, B)
    # the same number with two rules: neither has two controllers until one of them does
    d.start(0, 4)
    for c, rule in enumerate((A, B, C)):
        d.set_slot(c, 1, rule)
    d.share(1, 1, A)
    d.share(3, 1, B)
    # numbers may be skipped, and one below the last applied is late
    d.start(0, 3)
    d.share(2, 100, A)
    d.share(1, 99, B)
    d.share(1, 101, B)
    # a quorum that lies in the slots already: a repeat is a repeat, a new share counts
    d.start(0, 4)
    for c in range(3):
        d.set_slot(c, 5, A)
    d.share(0, 5, A)
    d.share(3, 5, A)


def evenings(d):
    """The second evening: one withdrawal of one controller, under two numbers. Then the first: one controller silent."""
    for numbers, controllers in d.some((((7, 8), (2, 2)),), (((7, 7), (2, 2)), ((7, 8), (2, 3)), ((7, 7), (2, 3)))):
        d.start(5, 4)
        d.set_entries([A])
        d.set_last(6)
        d.look_up(0x0A000001)
        for number, c in zip(numbers, controllers):
            d.share(c, number, WITHDRAWAL)
        d.look_up(0x0A000001)
        d.write(ACKNOWLEDGEMENT, FRAME, 0, 0)
    if d.long:
        d.start(5, 4)
        for c in (0, 1, 3):
            d.share(c, 1, A)
        for c in (3, 1, 0):
            d.share(c, 2, B)
        d.write(ACKNOWLEDGEMENT, FRAME, 1, 0)


def limits(d):
    """20 for each clause, from a state that is good but for it; and then from the good one again."""

    def broken(damage, mend):
        damage()
        if d.long:
            every_call(d)
        d.receive(b"")
        mend()

    def odd_slot(i, number, prefix, length, kind, port):
        def damage():
            d.poke_slot(i, number, prefix, length, kind, port)
            d.state.odd_slots[i] = "%d %d %d %s" % (number, prefix, length, "set %d" % port if kind else "remove")

        def mend():
            slot = d.state.slots[i]
            if slot:
                d.poke_slot(i, slot[0], slot[1][0], slot[1][1], 1 if slot[1][2] else 0, slot[1][2])
            else:
                d.poke_slot(i, 0, 0, 0, 0, 0)
            del d.state.odd_slots[i]

        return damage, mend

    def odd_entry(i, entry):
        def damage():
            d.poke_entry(i, entry)
            d.state.odd_entries[i] = entry

        def mend():
            d.poke_entry(i, d.state.entries[i] if i < len(d.state.entries) else (0, 0, 0))
            del d.state.odd_entries[i]

        return damage, mend

    def odd_count(count):
        def damage():
            d.poke_count(count)
            d.state.count = count

        def mend():
            d.poke_count(len(d.state.entries))
            d.state.count = None

        return damage, mend

    d.start(5, 4)
    d.set_entries([A, B, C])
    d.set_last(9)
    d.set_slot(1, 10, B)
    d.set_slot(3, 12, (0x0A000001, 8, 3))
    broken(lambda: d.set_id(16), lambda: d.set_id(5))
    broken(lambda: d.set_id(255), lambda: d.set_id(5))
    broken(lambda: d.set_n(0), lambda: d.set_n(4))
    broken(lambda: d.set_n(17), lambda: d.set_n(4))
    # slots n and above empty
    broken(lambda: d.set_n(3), lambda: d.set_n(4))
    broken(lambda: d.set_slot(4, 11, B), lambda: d.empty_slot(4))
    broken(lambda: d.set_slot(15, 11, B), lambda: d.empty_slot(15))
    # held numbers above the last applied
    broken(lambda: d.set_last(10), lambda: d.set_last(9))
    broken(lambda: d.set_last(LARGEST), lambda: d.set_last(9))
    # an empty slot is all zero
    for odd in ((2, 0, 0, 0, 1, 5), (2, 0, 0, 0, 1, 0), (2, 0, 0, 1, 0, 0), (2, 0, 1, 0, 0, 0), (9, 0, 0, 1, 0, 0)):
        broken(*odd_slot(*odd))
    # the table: order, each prefix and length once, well formed, ports above 0, at most 64, zero past the count
    for i, entry in ((1, A), (1, (0x0A000000, 7, 1)), (1, (0x09000000, 8, 1)), (2, (0x0A010000, 15, 1)),
                     (0, (0x0A000001, 8, 3)), (0, (0x0A000000, 33, 3)), (2, (0xC0A80000, 16, 0)),
                     (3, (0, 0, 1)), (63, (0, 1, 0)), (40, (1, 0, 0))):
        broken(*odd_entry(i, entry))
    for count in (2, 4, 64, 65, 255):
        broken(*odd_count(count))
    # what is not asked: a slot's rule, a cause beside serial 0
    d.set_raised(0, 200)
    every_call(d)


def stores(d):
    """21, after 20 and before all others."""
    d.start(2, 4)
    for length in d.some((0, 127, 129, 160), (1, 32, 96, 512, 544)):
        d.keys_of(2, length)
        d.share(0, 1, A)
        d.receive(b"")
        d.write(EVENT, 0, 9, 0)
        d.write(ACKNOWLEDGEMENT, FRAME, 0, 0)
        d.write(ACKNOWLEDGEMENT, 0, 9, 2 ** 64 - 1)
    d.raise_event(3)
    d.look_up(0)
    d.keys_of(2, 128)
    d.share(0, 1, A)


def writing(d):
    """12, 25, 26; frames too short, offsets past the end and at the largest number; the serial at its largest."""
    d.start(7, 4)
    for controller in d.some((3, 4), (0, 255)):
        for kind in (EVENT, ACKNOWLEDGEMENT):
            for length in (FRAME, kind.length - 1):
                d.write(kind, length, controller, 0)
    d.raise_event(0)
    d.raise_event(255)
    for kind in (EVENT, ACKNOWLEDGEMENT):
        size, last = kind.length, FRAME - kind.length
        for length in d.some((0, size - 1, size), (1, size + 1, FRAME)):
            for offset in d.some((0, 1, 2 ** 64 - size, 2 ** 64 - 1), (length, length + 1, 2 ** 32)):
                d.write(kind, length, 2, offset)
        for offset in d.some((last, last + 1), (last - 1,)):
            d.write(kind, FRAME, 3, offset)
    d.set_raised(LARGEST - 1, 9)
    d.write(EVENT, FRAME, 1, 3)
    for cause in (10, 11):
        d.raise_event(cause)
        d.write(EVENT, FRAME, 1, 3)
    d.set_last(LARGEST - 1)
    d.share(0, LARGEST, A)
    d.share(1, LARGEST, A)
    d.share(2, LARGEST, A)
    d.write(ACKNOWLEDGEMENT, FRAME, 1, 3)


def in_place(d):
    """An event raised where it stands: from the first serial, and up to the largest, where it is left as it is."""
    d.start(9, 4)
    for cause in (255, 0):
        d.raise_in_place(cause)
    d.raise_event(7)
    d.set_raised(LARGEST - 1, 9)
    for cause in (10, 11):
        d.raise_in_place(cause)
    d.raise_event(12)
    d.write(EVENT, FRAME, 1, 3)
    # no question of the state
    d.set_n(0)
    d.raise_in_place(13)
    d.set_raised(0, 200)
    d.raise_in_place(14)


def at_random(d, seed, calls):
    """Calls of every kind, most of them shares that could pass, on few numbers and rules."""
    r = random.Random(seed)
    id, n = r.randrange(16), r.randrange(1, 17)
    d.start(id, n)
    number = 1
    for _ in range(calls):
        what = r.randrange(20)
        if what == 0:
            r.choice((d.raise_event, d.raise_in_place))(r.randrange(256))
        elif what == 1:
            kind = EVENT if r.randrange(2) == 0 else ACKNOWLEDGEMENT
            d.write(kind, r.randrange(20, FRAME + 1), r.randrange(n + 1), r.randrange(26))
        elif what == 2:
            d.look_up(r.choice((0x0A000000, 0x0A010000, 0x0A010001, 0xC0A80001)))
        elif what == 3:
            s = bytearray(share(r.randrange(n), id, number, A))
            s[r.randrange(SHARE.length)] ^= 1 << r.randrange(8)
            d.receive(bytes(s))
        else:
            rule = r.choice((A, A, A, B, (B[0], B[1], 0), (0x0A000000, 8, 9)))
            if d.share(r.randrange(n), max(number + r.choice((-1, 0, 0, 0, 0, 1)), 0), rule) == 1:
                number += 1


def drill(long):
    d = Drill(long)
    for scene in (setups, questions, tables, lookups, agreement, evenings, limits, stores, writing, in_place):
        scene(d)
    for seed in d.some((), range(10)):
        at_random(d, seed, 80)
    return d


if __name__ == "__main__":
    tell(__doc__, drill)
