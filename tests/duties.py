"""Calls at one controller for the program drive, and what it must print, worked out from document 01 with Python's own
library.

    python3 tests/duties.py stdin          the calls
    python3 tests/duties.py stdout         the lines
    python3 tests/duties.py stdin long     many more calls, for the compiled program
    python3 tests/duties.py stdout long    their lines

Nothing here is taken from the crates. Names and numbers are document 01's.
"""
import random
import struct

from paper import (ACKNOWLEDGEMENT, EVENT, FRAME, KEY_LENGTH, LARGEST, SHARE, TAG_LENGTH, Calls, acknowledgement,
                   controller_keys, event, is_sealed, key, key_at, put, record, sealed, tell, unwritten, well_formed)

# Bytes in a controller's key store.
STORE = 16 * KEY_LENGTH
# A rule is (prefix, length, port): port 0 removes, None sets port 0, which only a damaged state can have.
NO_RULE = (0, 0, 0)
# An undone change is (number, first, flow, switch, rule), a plan (switch, cause, first, count), a change of it
# (flow, switch, rule).
NO_UNDONE = (0, 0, 0, 0, NO_RULE)
NO_PLAN = (0, 0, 0, 0)
NO_CHANGE = (0, 0, NO_RULE)


def rule_good(rule):
    return rule[2] is not None and well_formed(rule[0], rule[1])


def rule_shown(rule):
    prefix, length, port = rule
    return "%d %d %s" % (prefix, length, "remove" if port == 0 else "set %d" % (port or 0))


def rule_bytes(rule):
    """As the program's cases have it, where port 0 can be set."""
    prefix, length, port = rule
    return struct.pack(">IBBH", prefix, length, 0 if port == 0 else 1, port or 0)


class Book:
    """A playbook's store, from plans ((switch, cause), changes)."""

    def __init__(self, plans=()):
        self.plans, self.changes = [], []
        for (switch, cause), changes in plans:
            self.plans.append((switch, cause, len(self.changes), len(changes)))
            self.changes += changes
        self.planned, self.listed = len(self.plans), len(self.changes)
        self.plans += [NO_PLAN] * (64 - self.planned)
        self.changes += [NO_CHANGE] * (512 - self.listed)

    def copy(self):
        b = Book()
        b.plans, b.changes = list(self.plans), list(self.changes)
        b.planned, b.listed = self.planned, self.listed
        return b

    def good(self):
        """Such as its reader stores."""
        if self.planned > 64 or self.listed > 512:
            return False
        plans, changes = self.plans[:self.planned], self.changes[:self.listed]
        if any(q != NO_PLAN for q in self.plans[self.planned:]):
            return False
        if any(x != NO_CHANGE for x in self.changes[self.listed:]):
            return False
        place = 0
        for switch, cause, first, count in plans:
            if switch > 15 or count > 32 or first != place:
                return False
            place += count
        if place != self.listed or len({q[:2] for q in plans}) != len(plans):
            return False
        if not all(x[1] <= 15 and rule_good(x[2]) for x in changes):
            return False
        return all(len({x[2][:2] for x in changes if x[1] == s}) <= 64 for s in range(16))

    def bytes(self):
        s = b""
        for switch, cause, first, count in self.plans[:self.planned]:
            s += record("plan", switch, cause)
            for flow, on, rule in self.changes[first:first + count]:
                s += record("change", flow, on, *rule)
        return s + record("end")

    def plan(self, switch, cause):
        for s, c, first, count in self.plans[:self.planned]:
            if (s, c) == (switch, cause):
                return self.changes[first:first + count]
        return []

    def counts(self):
        return " book %d %d" % (self.planned, self.listed)

    def show(self):
        text = self.counts()
        for i, q in enumerate(self.plans):
            if q != NO_PLAN:
                text += " plan %d %d %d %d %d" % ((i,) + q)
        for i, (flow, switch, rule) in enumerate(self.changes):
            if (flow, switch, rule) != NO_CHANGE:
                text += " change %d %d %d %s" % (i, flow, switch, rule_shown(rule))
        return text


class Controller:
    def __init__(self, id=0, n=0, book=None):
        self.id, self.n, self.book, self.last = id, n, book or Book(), 0
        self.acknowledged, self.serials = [0] * 16, [0] * 16
        self.places, self.count = [NO_UNDONE] * 64, 0

    def undone(self):
        return self.places[:self.count]

    def hold(self, undone):
        self.places, self.count = undone + [NO_UNDONE] * (64 - len(undone)), len(undone)

    def good(self):
        """Question 20."""
        if not (1 <= self.n <= 16 and self.id < self.n) or self.count > 64:
            return False
        if any(u != NO_UNDONE for u in self.places[self.count:]):
            return False
        below = None
        for number, first, flow, switch, rule in self.undone():
            if switch > 15 or number <= self.acknowledged[switch] or number > self.last:
                return False
            if not 1 <= first <= number or not rule_good(rule):
                return False
            if below is not None and number <= below:
                return False
            below = number
        return self.book.good()

    def show(self):
        text = " state %d %d %d%s" % (self.id, self.n, self.last, self.book.counts())
        for name, numbers in (("acknowledged", self.acknowledged), ("serial", self.serials)):
            for s, k in enumerate(numbers):
                if k:
                    text += " %s %d %d" % (name, s, k)
        text += " count %d" % self.count
        for i, u in enumerate(self.places):
            if u != NO_UNDONE:
                text += " undone %d %d %d %d %d %s" % ((i,) + u[:4] + (rule_shown(u[4]),))
        return text

    def receive(self, keys, s):
        """The answer, and what is offered."""
        if not self.good():
            return 20, ""
        if len(keys) != STORE:
            return 21, ""
        kind = {EVENT.length: EVENT, ACKNOWLEDGEMENT.length: ACKNOWLEDGEMENT}.get(len(s))
        if kind is None:
            return 10, ""
        if s[0] != kind.number:
            return 11, ""
        switch, controller, number, *cause = kind.fields(s)
        if switch > 15:
            return 12, ""
        if controller != self.id:
            return 13, ""
        if not is_sealed(key_at(keys, switch), s):
            return 14, ""
        if kind is EVENT:
            if number <= self.serials[switch]:
                return 22, ""
            return 0, " offered %d %d %d" % (switch, number, *cause)
        if number <= self.acknowledged[switch]:
            return 2, ""
        self.acknowledged[switch] = number
        self.hold([u for u in self.undone() if not (u[3] == switch and u[0] <= number)])
        return 0, ""

    def ready(self, switch):
        """The undone changes on a switch that wait for no lower-numbered undone one on the same switch, or of the same
        decision and flow."""
        return [u for u in self.undone() if u[3] == switch and not any(
            v[0] < u[0] and (v[3] == u[3] or v[1:3] == u[1:3]) for v in self.undone())]

    def write(self, keys, length, switch, offset):
        """The answer, and the frame."""
        frame = unwritten()
        if not self.good():
            return 20, frame
        if len(keys) != STORE:
            return 21, frame
        if switch > 15:
            return 12, frame
        if offset + SHARE.length > length:
            return 25, frame
        ready = self.ready(switch)
        assert len(ready) <= 1
        if not ready:
            return 26, frame
        number, first, flow, on, rule = ready[0]
        put(frame, offset, SHARE.made(key_at(keys, switch), self.id, switch, number, *rule))
        return 0, frame

    def decide(self, switch, serial, cause):
        if not self.good():
            return 20
        if switch > 15:
            return 12
        if serial <= self.serials[switch]:
            return 22
        changes, first = self.book.plan(switch, cause), self.last + 1
        if self.last + len(changes) > LARGEST:
            return 23
        given = [(first + i, first, flow, on, rule) for i, (flow, on, rule) in enumerate(changes)]
        undone = self.undone() + [u for u in given if u[0] > self.acknowledged[u[3]]]
        if len(undone) > 64:
            return 24
        self.serials[switch] = serial
        self.last += len(changes)
        self.hold(undone)
        return 0


class Duty(Calls):
    """Calls at one controller."""

    def __init__(self, long):
        super().__init__(long, "controller", Controller())
        self.book, self.keys = Book(), b""

    def replied(self, word, answer, offered="", more=""):
        self.line("%s %d%s%s%s" % (word, answer, offered, self.state.show(), more))
        return answer

    def read(self, book):
        self.call("b", book.bytes())
        self.line("read 0" + book.show())
        self.book = book

    def read_first(self, book, more):
        self.call("f", book.bytes() + more)
        self.line("read first 0 %d%s" % (len(book.bytes()), book.show()))
        self.book = book

    def holds(self):
        self.call("p", b"")
        self.line("holds" + self.state.book.show())

    def setup(self, id, n):
        self.call("s", bytes([id, n]))
        good = 1 <= n <= 16 and id < n
        self.state = Controller(id, n, self.book.copy()) if good else Controller()
        self.replied("setup", 0 if good else 20)
        self.holds()

    def keys_of(self, id, length):
        self.store(controller_keys(id, 17)[:length])

    def start(self, id, n):
        self.setup(id, n)
        self.keys_of(id, STORE)

    def receive(self, s):
        self.call("m", s)
        answer, offered = self.state.receive(self.keys, s)
        return self.replied("received", answer, offered)

    def acknowledge(self, switch, number):
        return self.receive(acknowledgement(switch, self.state.id, number))

    def event(self, switch, serial, cause):
        return self.receive(event(switch, self.state.id, serial, cause))

    def decide(self, switch, serial, cause):
        self.call("d", struct.pack(">BIB", switch, serial, cause))
        return self.replied("decided", self.state.decide(switch, serial, cause))

    def write(self, switch, length=FRAME, offset=0):
        self.call("w", struct.pack(">BBQ", length, switch, offset))
        answer, frame = self.state.write(self.keys, length, switch, offset)
        return self.replied("written", answer, more=" frame " + frame.hex())

    # What a state is made to be, without a call.

    def set_acknowledged(self, switch, number):
        self.alter(struct.pack(">BBI", 3, switch, number))
        self.state.acknowledged[switch] = number

    def set_serial(self, switch, serial):
        self.alter(struct.pack(">BBI", 4, switch, serial))
        self.state.serials[switch] = serial

    def set_place(self, i, u):
        self.alter(struct.pack(">BBIIBB", 5, i, *u[:4]) + rule_bytes(u[4]))
        self.state.places[i] = u

    def set_count(self, count):
        self.alter(bytes([6, count]))
        self.state.count = count

    def set_counts(self, planned, listed):
        self.alter(struct.pack(">BBH", 7, planned, listed))
        self.state.book.planned, self.state.book.listed = planned, listed

    def set_plan(self, i, plan):
        self.alter(struct.pack(">BBBBHB", 8, i, *plan))
        self.state.book.plans[i] = plan

    def set_change(self, i, change):
        self.alter(struct.pack(">BHBB", 9, i, *change[:2]) + rule_bytes(change[2]))
        self.state.book.changes[i] = change


A, B, C = (0x0A000000, 8, 3), (0x0A010000, 16, 4), (0xC0A80000, 16, 0)
EVENING = Book([((5, 1), [(0, 2, A), (0, 5, A), (1, 2, B), (1, 7, B), (2, 9, C)]),
                ((5, 2), []),
                ((0, 255), [(0, 2, B), (0, 5, C)])])


def setups(d):
    """The ranges; a refused one is all zero, whatever playbook it was given."""
    d.read_first(EVENING, b"\x13\x12")
    d.read(EVENING)
    for id, n in d.some(((3, 4), (4, 4), (0, 17)), ((0, 0), (0, 1), (1, 1), (15, 16), (16, 16), (255, 255), (0, 16))):
        d.setup(id, n)
    d.keys_of(0, STORE)
    d.receive(b"")
    d.write(0)


def questions(d):
    """10 to 14 and 22 in order, each message failing those after the one that refuses it too."""
    d.start(3, 4)
    d.set_serial(5, 9)
    good = event(5, 3, 10, 1)
    done = acknowledgement(5, 3, 10)
    least, most = ACKNOWLEDGEMENT.length, EVENT.length
    for length in d.some((least - 1, most + 1), (0, 1, ACKNOWLEDGEMENT.body, EVENT.body, TAG_LENGTH, least - 2,
                                                 most + 2, SHARE.length, SHARE.length + 1, 255)):
        d.receive((good * 11)[:length])
    d.receive(b"\x03" + good[1:])
    d.receive(b"\x01" + done[1:])
    for kind in d.some((), (0, 2, 3, 4, 129)):
        d.receive(sealed(key(3, 5), bytes([kind]) + good[1:EVENT.body]))
    for switch in d.some((16,), (17, 255)):
        d.receive(event(switch, 9, 0, 0, key(3, 16)))
        d.receive(acknowledgement(switch, 9, 0, key(3, 16)))
    for controller in d.some((4,), (0, 2, 16, 255)):
        d.receive(event(5, controller, 0, 0, key(3, 5)))
        d.receive(acknowledgement(5, controller, 0, key(3, 6)))
    for i in d.some((EVENT.length - 1,), range(3, EVENT.length - 1)):
        d.receive(good[:i] + bytes([good[i] ^ 1 << i % 8]) + good[i + 1:])
    for i in d.some((6,), (3, 4, 5) + tuple(range(7, ACKNOWLEDGEMENT.length))):
        d.receive(done[:i] + bytes([done[i] ^ 1 << i % 8]) + done[i + 1:])
    d.receive(event(5, 3, 0, 0, key(3, 6)))
    for s in d.some((), (event(5, 3, 10, 1, key(5, 3)), acknowledgement(5, 3, 10, key(2, 5)))):
        d.receive(s)
    for serial in d.some((9, 10), (0, 8, LARGEST)):
        d.event(5, serial, 1)


def events(d):
    """An event is offered each time, with a plan or without one; nothing is remembered."""
    d.start(3, 4)
    d.event(5, 1, 1)
    d.event(5, 1, 1)
    for switch, serial, cause in d.some((), ((15, LARGEST, 255), (5, LARGEST, 0), (0, 7, 1))):
        d.event(switch, serial, cause)
    d.set_serial(5, LARGEST)
    for switch, serial in d.some(((5, LARGEST),), ((5, 1), (0, 1))):
        d.event(switch, serial, 255)


def acknowledgements(d):
    """An older and an equal one are repeats, one above every number given is taken; freed places are zero."""
    d.start(3, 4)
    d.decide(5, 1, 1)
    d.decide(0, 1, 255)
    for switch, number in d.some((), ((2, 0), (9, 4), (9, 0))):
        d.acknowledge(switch, number)
    for switch, number in d.some(((2, 3), (2, 3), (2, 1), (9, 5), (5, LARGEST)), ((2, 2),)):
        d.acknowledge(switch, number)
    for switch, number in d.some((), ((5, LARGEST), (5, LARGEST - 1), (5, 0), (2, 6), (7, 100))):
        d.acknowledge(switch, number)
    if d.long:
        # what is decided after it is done already, and is not held
        d.decide(5, 2, 1)
        for switch, number in ((2, 8), (7, 99), (7, 100), (7, 101)):
            d.acknowledge(switch, number)


def decisions(d):
    """20, 12 and 22 in order; an empty plan and none; what is done already takes a number and is not held."""

    def decide(few, many=()):
        for switch, serial, cause in d.some(few, many):
            d.decide(switch, serial, cause)

    d.start(3, 4)
    d.set_n(3)
    d.decide(16, 0, 1)
    d.set_n(4)
    decide(((16, 0, 1), (5, 0, 1), (5, 7, 2), (5, 7, 1), (5, 6, 1), (9, 1, 1), (5, 8, 1)),
           ((255, 9, 1), (15, LARGEST, 255), (15, LARGEST, 0), (5, 8, 2)))
    # a controller that lags is told of higher numbers first; the first number is still that of the first listed change
    d.acknowledge(2, 8)
    d.decide(5, 9, 1)
    if d.long:
        for switch, number in ((5, 2), (7, 4), (9, 5)):
            d.acknowledge(switch, number)
            for ready in (2, 5, 7, 9):
                d.write(ready)
        decide(((0, 1, 255), (5, LARGEST, 1), (5, LARGEST, 2)))
    # 23 counts the whole plan, done changes too; the largest number is given, and after it none
    d.start(3, 4)
    d.set_acknowledged(2, LARGEST)
    d.set_acknowledged(5, LARGEST)
    d.set_last(LARGEST - 1)
    decide(((0, 1, 255),))
    d.set_last(LARGEST - 2)
    decide(((0, 1, 255), (0, 2, 255), (5, 1, 2), (9, 1, 1)), ((0, 1, 255), (5, 2, 1)))
    d.set_acknowledged(2, 0)
    d.set_acknowledged(5, 0)
    d.set_last(LARGEST - 4)
    decide(((5, 2, 1),))
    d.set_last(LARGEST - 5)
    decide(((5, 2, 1),), ((5, 3, 1), (5, 3, 2), (5, 3, 0)))


def room(d):
    """24 counts what would be held; a decision that it refused is taken when it is brought again and there is room."""
    d.read(Book([((0, 0), [(i % 3, i % 4, A) for i in range(32)]),
                 ((1, 0), [(0, 8, B)]),
                 ((3, 0), [(0, 8, A), (0, 15, B)]),
                 ((4, 0), [(0, 9, A), (0, 8, C)])]))
    d.start(0, 1)
    d.decide(1, 1, 0)
    d.decide(0, 1, 0)
    # 33 and 32 do not fit, 32 and 32 do
    d.decide(0, 2, 0)
    d.acknowledge(8, LARGEST)
    d.decide(0, 2, 0)
    # with 64 undone: no plan, and a change that is done already; one that is not does not fit
    for switch, serial in d.some(((2, 1), (1, 2)), ((3, 1), (0, 3), (1, 2), (1, 1))):
        d.decide(switch, serial, 0)
    # one flow byte in two decisions binds inside each: 9 does not wait for the other decision, 15 waits in its own
    d.start(0, 1)
    d.decide(3, 1, 0)
    d.decide(4, 1, 0)
    for switch in d.some((9, 15), (8,)):
        d.write(switch)
    if d.long:
        for on, number in ((8, 1), (9, 3), (15, 2)):
            d.acknowledge(on, number)
            for switch in (8, 9, 15):
                d.write(switch)


def readiness(d):
    """The lowest change of a switch waits for those of its decision and flow; a share made again has the same bytes."""
    def writes(few, many=()):
        for switch in d.some(few, many):
            d.write(switch)

    d.start(3, 4)
    d.decide(5, 1, 1)
    writes((5, 2, 2), (9, 7, 0, 15))
    # the other flow on switch 2 waits for the first change there, and switch 7 for it
    d.acknowledge(2, 1)
    writes((2, 5), (7,))
    if d.long:
        d.acknowledge(5, 2)
        writes((7, 5))
    d.acknowledge(2, 3)
    writes((7,), (2, 5))
    if d.long:
        # the same flow byte in another decision binds nothing; the same switch does
        d.decide(0, 1, 255)
        writes((2, 5))
        d.decide(5, 2, 1)
        writes((5, 2, 9))
        for switch, number in ((2, 6), (9, 5), (5, 7), (2, 8), (9, 12)):
            d.acknowledge(switch, number)
            writes((2, 5, 7, 9))


def writing(d):
    """12, 25, 26; frames too short, offsets past the end and at the largest number."""
    d.start(1, 2)
    d.decide(5, 1, 1)
    for switch in d.some((16,), (17, 255)):
        d.write(switch, 0, 0)
    size, last = SHARE.length, FRAME - SHARE.length
    for switch, length, offset in ((3, size - 1, 0), (3, size, 0), (2, size - 1, 0), (2, size, 0), (2, size, 1),
                                   (2, size, 2 ** 64 - size)):
        d.write(switch, length, offset)
    if d.long:
        for switch in (2, 3, 16):
            for length in (0, 1, size - 1, size, size + 1, FRAME - 1, FRAME):
                for offset in (0, 1, last - 1, last, last + 1, length, length + 1, 2 ** 32, 2 ** 64 - size,
                               2 ** 64 - 1):
                    d.write(switch, length, offset)
    # numbers and a rule at their largest
    d.start(15, 16)
    d.set_last(LARGEST)
    d.set_place(0, (LARGEST, LARGEST, 255, 15, (LARGEST, 32, 65535)))
    d.set_count(1)
    d.write(15, FRAME, last)
    for number in d.some((), (LARGEST, LARGEST, LARGEST - 1)):
        d.acknowledge(15, number)
        d.write(15)


def stores(d):
    """21, after 20 and before all others."""
    d.start(2, 4)
    d.decide(5, 1, 1)
    for length in d.some((128, STORE + 1), (0, 1, KEY_LENGTH, STORE - KEY_LENGTH, STORE - 1, STORE + KEY_LENGTH)):
        d.keys_of(2, length)
        d.receive(b"")
        d.write(16, 0, 9)
        if d.long:
            d.acknowledge(2, 1)
            d.write(2)
    d.set_id(4)
    d.receive(b"")
    d.write(2)
    d.set_id(2)
    d.keys_of(2, STORE)
    if d.long:
        d.acknowledge(2, 1)


def limits(d):
    """20 for each clause, from a state that is good but for it; and then from the good one again."""
    d.start(3, 4)
    d.decide(5, 1, 1)
    c = d.state
    whole = Controller(c.id, c.n, c.book.copy())
    good = [(1, 1, 0, 2, A), (2, 1, 0, 5, A), (3, 1, 1, 2, B), (4, 1, 1, 7, B), (5, 1, 2, 9, C)]
    assert c.undone() == good

    def broken(damage, mend):
        damage()
        d.receive(b"")
        if d.long:
            d.decide(5, 10, 1)
            d.write(2)
            d.write(16, 0)
            d.event(5, 10, 1)
            d.acknowledge(9, 5)
        mend()

    def place(i, u):
        was = c.places[i]
        broken(lambda: d.set_place(i, u), lambda: d.set_place(i, was))

    def count(n):
        broken(lambda: d.set_count(n), lambda: d.set_count(5))

    def counts(planned, listed):
        broken(lambda: d.set_counts(planned, listed), lambda: d.set_counts(3, 7))

    def plan(i, q):
        broken(lambda: d.set_plan(i, q), lambda: d.set_plan(i, whole.book.plans[i]))

    def change(i, x):
        broken(lambda: d.set_change(i, x), lambda: d.set_change(i, whole.book.changes[i]))

    # n and the id
    for id in d.some((4,), (255,)):
        broken(lambda: d.set_id(id), lambda: d.set_id(3))
    for n in d.some((0, 3, 17), (1, 255)):
        broken(lambda: d.set_n(n), lambda: d.set_n(4))
    # at most 64, and unused places zero
    for n in d.some((4, 6, 65), (0, 64, 255)):
        count(n)
    for u in d.some(((0, 0, 0, 0, (0, 0, None)),), ((6, 0, 0, 0, NO_RULE), (0, 1, 0, 0, NO_RULE), (0, 0, 1, 0, NO_RULE),
                    (0, 0, 0, 1, NO_RULE), (0, 0, 0, 0, (1, 0, 0)), (0, 0, 0, 0, (0, 1, 0)), (0, 0, 0, 0, (0, 0, 1)))):
        place(5, u)
        place(63, u)
    # rising; above the acknowledged number, at most the last given; the first number from 1 to its own; known switch;
    # well-formed rule
    place(2, (2, 1, 1, 2, B))
    place(2, (4, 1, 1, 2, B))
    place(0, (0, 0, 0, 2, A))
    broken(lambda: d.set_acknowledged(5, 2), lambda: d.set_acknowledged(5, 0))
    broken(lambda: d.set_last(4), lambda: d.set_last(5))
    place(1, (2, 0, 0, 5, A))
    place(1, (2, 3, 0, 5, A))
    place(4, (5, 1, 2, 16, C))
    for rule in d.some(((0x0A000001, 8, 3),), ((0x0A000000, 33, 3), (1, 0, 0), (0x0A000000, 8, None))):
        place(1, (2, 1, 0, 5, rule))
    # the playbook: counts, triggers, spans, switches, rules, unused places
    for planned, listed in d.some(((2, 7), (3, 6)), ((4, 7), (3, 8), (65, 7), (3, 513), (0, 0))):
        counts(planned, listed)
    plan(1, (5, 1, 5, 0))
    for q in d.some((), ((16, 2, 5, 0), (5, 2, 4, 0), (5, 2, 5, 1))):
        plan(1, q)
    plan(3, (0, 1, 0, 0))
    for x in d.some(((0, 16, A),), ((0, 2, (0x0A000001, 8, 3)), (0, 2, (0, 33, 0)), (0, 2, (0, 0, None)))):
        change(6, x)
    change(7, (1, 0, NO_RULE))
    if d.long:
        change(511, (0, 0, (0, 0, 1)))
    # what is not asked: that a decision's numbers lie together, that changes are in the playbook, that serials agree
    d.set_last(LARGEST)
    d.set_place(4, (LARGEST, 17, 200, 15, (0, 0, 9)))
    d.set_serial(9, LARGEST)
    d.set_acknowledged(8, LARGEST)
    d.write(15)
    d.event(9, 1, 0)
    d.acknowledge(15, LARGEST)


def full(d):
    """Sixty-four undone changes, dropped in the middle, at both ends and all at once; and prefixes at their limit."""

    def plan(s):
        return [(i % 3, (s + i) % 4, (0x0A000000 + (32 * s + i) * 256, 24, i)) for i in range(32)]

    d.read(Book([((0, 0), plan(0)), ((1, 0), plan(1))]))
    d.start(0, 1)
    d.decide(0, 1, 0)
    d.decide(1, 1, 0)
    for switch in range(4):
        d.write(switch)
    for switch, number in ((1, 30), (2, 33), (1, 29), (0, LARGEST), (3, 64), (2, 64), (1, 64)):
        d.acknowledge(switch, number)
        d.write(1)
    keys = [((0, cause), [(0, 7, (0x0A000000 + (32 * cause + i) * 256, 24, 1)) for i in range(32)]) for cause in (0, 1)]
    d.read(Book(keys + [((1, 1), [(0, 7, (0x0A000000, 24, 0)), (0, 8, (0x0B000000, 24, 1))])]))
    d.start(0, 1)
    d.event(1, 1, 1)
    d.set_change(65, (0, 7, (0x0B000000, 24, 1)))
    d.event(1, 1, 1)


def at_random(d, seed, calls):
    """Calls of every kind, most of them such as could pass, on few switches and flows. Some controllers are near the
    largest number, and some have long plans and few acknowledgements."""
    r = random.Random(seed)
    busy = seed % 4 == 2
    rules = [A, B, C, (0, 0, 1), (0x0A000000, 8, 0)]
    plans = []
    for trigger in {(r.randrange(5), r.randrange(3)) for _ in range(6)}:
        count = r.randrange(33 if busy else 7)
        plans.append((trigger, [(r.randrange(3), r.randrange(5), r.choice(rules)) for _ in range(count)]))
    d.read(Book(sorted(plans)))
    n = r.randrange(1, 17)
    d.start(r.randrange(n), n)
    c = d.state
    if seed % 4 == 3:
        d.set_last(LARGEST - r.randrange(8))
    for _ in range(calls):
        what, switch = r.randrange(2 if busy and r.randrange(3) else 10), r.randrange(5)
        if what == 0:
            serial = c.serials[switch] + r.choice((-1, 0, 1, 1, 1, 1, 2, 3))
            d.decide(r.choice((16,) + (switch,) * 9), max(serial, 0), r.randrange(3))
        elif what == 1:
            d.event(switch, max(c.serials[switch] + r.randrange(-1, 3), 0), r.randrange(256))
        elif what == 2:
            s = bytearray(acknowledgement(switch, c.id, min(c.acknowledged[switch] + 1, LARGEST)))
            s[r.randrange(ACKNOWLEDGEMENT.length)] ^= 1 << r.randrange(8)
            d.receive(bytes(s))
        elif what < 6:
            of = [u[0] for u in c.undone() if u[3] == switch] + [c.acknowledged[switch], c.last + 1]
            ahead = min(of) if r.randrange(8) else c.last + r.randrange(9)
            d.acknowledge(switch, min(max(ahead + r.choice((0, 0, 0, 0, 1, -1)), 0), LARGEST))
        else:
            d.write(switch, r.choice((FRAME, FRAME, FRAME, FRAME - 8)), r.randrange(FRAME - SHARE.length + 2))


def no_calls(d):
    """A letter that calls for nothing, an end that there is not, and a call that is cut."""
    d.script += b"?\0\0\0" + b"?\x10\0\0" + b"d\x10\0\1\0" + b"M\xff\0\0" + b"s\0\0\3\0\4"
    d.lines += ["unknown call", "unknown call", "unknown end", "unknown end", "cut call"]


def duty(long):
    d = Duty(long)
    for scene in (setups, questions, events, acknowledgements, decisions, readiness, writing, stores, limits, room):
        scene(d)
    for seed in d.some((), range(16)):
        at_random(d, seed, 80)
    if long:
        full(d)
    no_calls(d)
    return d


if __name__ == "__main__":
    tell(__doc__, duty)
