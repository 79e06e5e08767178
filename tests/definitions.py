"""Runs the definitions of crates/*/specs as text (tests/evaluate.py), and compares what they give with document 01 as
the models in Python have it: hashes, messages, playbooks, calls at a switch and at a controller, runs with the ideal
controller, rehearsals, and FLOW_MODs. No prover and no code has a part in it. What is a proposition and no value is not
run.

    python3 tests/definitions.py [FOLDER]     what differs, for the definitions below a folder
"""
import hashlib
import hmac
import random
import struct
import sys

import drills
import duties
import evaluate
import flowmods
import rehearsals
import trials
from driven import ControllerCalls, SwitchCalls, rule_of, rule_text
from evaluate import Built, Function, apply, now
from paper import ACKNOWLEDGEMENT, EVENT, FRAME, SHARE, key, share

# Where the definitions stand that are compared; those that they use are run with them.
WHERE = {
    "tag/Sha256": "sha256", "tag/Hmac": "hmac", "flow/Tables": "entries_of", "flow/Lookups": "lookup_of",
    "message/Reading": "decode number_of is_sealed", "message/Writing": "write_to",
    "playbook/Reading": "read_first read_whole", "playbook/Storing": "stored_ok", "playbook/Plans": "plan_of",
    "playbook/Books": "book_of store_of no_plans", "playbook/Printing": "bytes_of",
    "switch/Slots": "quorum_of", "switch/States": "fresh setup_of", "switch/Receiving": "received_by",
    "switch/Raising": "raised_by next_event", "switch/Writing": "event_written acknowledgement_written",
    "switch/Lookups": "looked_up", "controller/States": "fresh setup_of", "controller/Receiving": "received_by",
    "controller/Writing": "share_written", "controller/Decisions": "decided_by",
    "domain/Settings": "playbook", "domain/Calls": "start step", "domain/Premises": "brought taken",
    "domain/Agreement": "agreed_changes", "domain/Ideals": "fed", "protocol/Orders": "falling",
    "domain/Claim": "made answered highest numbers_at unmade changes_of", "edges/Asking": "example answer_to",
    "edges/Table": "table", "edges/Beside": "beside", "witness/Evening": "evening evening_calls answers",
    "witness/Played": "rounds", "rehearsal/Scripts": "rehearsed", "rehearsal/Storing": "begun_of",
    "openflow/Writing": "flow_mod_written", "openflow/Reading": "number_in rule_in",
    "feed/Rules": "applied_of rules_in", "feed/Mods": "mods_written",
}
SECRET = tuple(trials.KEY)
# Of the cases, those that are soon rehearsed: so many bytes, changes in the playbook, and lines.
LONGEST, MOST_CHANGES, MOST_LINES = 12000, 64, 12


class Compared:
    """The definitions by crate and name, and how many comparisons there were. The first that differs ends it."""

    def __init__(self, root):
        self.all, self.count, self.of = evaluate.Definitions(root), 0, {}
        for where, names in WHERE.items():
            for name in names.split():
                self.of[where.split("/")[0], name] = self.all.of(*where.split("/"), name)

    def same(self, what, found, wanted):
        self.count += 1
        if found != wanted:
            sys.exit("%s: the definitions give\n%.500s\nand document 01\n%.500s" % (what, found, wanted))


def tags(c):
    """Around the lengths at which padding takes another block, and keys about a block long."""
    for n in (0, 1, 3, 55, 56, 63, 64, 65, 119, 120, 200):
        m = bytes((7 * i + n) % 256 for i in range(n))
        c.same("sha256 of %d bytes" % n, bytes(c.of["tag", "sha256"](tuple(m))), hashlib.sha256(m).digest())
    for n in (0, 20, 32, 63, 64, 65, 131):
        secret, m = bytes(range(n)), b"what is tagged"
        c.same("hmac with a key of %d bytes" % n, bytes(c.of["tag", "hmac"](tuple(secret), tuple(m))),
               hmac.new(secret, m, hashlib.sha256).digest())
    c.all.replace("tag", "Sha256", "sha256", lambda m: tuple(hashlib.sha256(bytes(m)).digest()))


def messages(c):
    """Bytes read at each end, and messages written."""
    for end, s in trials.messages():
        m = c.of["message", "decode"](Built("Switch" if end == "S" else "Controller"), tuple(s))
        parts = m.parts
        if m.case == "Share":
            rule = parts[3]
            port = sum(rule["action"].parts)
            parts = parts[:3] + (rule["prefix"], rule["length"], port)
        sealed = "sealed" if c.of["message", "is_sealed"](SECRET, tuple(s)) else "not sealed"
        text = "%s answer %d %s" % (" ".join([m.case.lower()] + [str(part) for part in parts]),
                                    c.of["message", "number_of"](m), sealed)
        c.same("bytes %s at %s" % (s.hex(), end), text, trials.received(end, s))
    for length, offset, fields in trials.writings():
        kind, parts = {1: "Event", 2: "Share", 3: "Acknowledgement", 4: "Refused"}[fields[0]], fields[1:]
        if kind == "Share":
            parts = fields[1:4] + (rule_of(*fields[4:]),)
        written = c.of["message", "write_to"](SECRET, Built(kind, parts), (0xEE,) * length, offset)
        frame = bytes(written["1"]) + b"\xEE" * (FRAME - length)
        c.same("%s at %d of %d" % (fields, offset, length), "written %d %s" % (written["0"], frame.hex()),
               trials.written(length, offset, fields))


def playbooks(c):
    """Playbooks read, whole and up to their end record, stored, looked up and printed."""
    def outcome(r):
        book = c.of["playbook", "book_of"](r["playbook"])
        plans = [[q["switch"], q["cause"], q["first"], q["count"]] for q in book["plans"]]
        changes = [(x["flow"], x["switch"], x["rule"]["prefix"], x["rule"]["length"], sum(x["rule"]["action"].parts))
                   for x in book["changes"]]
        return r["answer"], r["used"], plans, changes

    for s in trials.playbooks():
        if len(s) > 1000:
            continue
        whole = c.of["playbook", "read_whole"](tuple(s))
        c.same("playbook %s" % s.hex(), outcome(whole), trials.read_whole(s))
        c.same("beginning of %s" % s.hex(), outcome(c.of["playbook", "read_first"](tuple(s))), trials.read_first(s))
        c.same("store of %s" % s.hex(), c.of["playbook", "stored_ok"](whole["playbook"]), True)
        if whole["answer"] == 0:
            c.same("bytes of %s" % s.hex(), bytes(c.of["playbook", "bytes_of"](whole["playbook"])), s)
    for switch, cause, s in trials.shows():
        plans = outcome(c.of["playbook", "read_whole"](tuple(s)))[2]
        q = c.of["playbook", "plan_of"]({"0": switch, "1": cause}, tuple(
            dict(zip(("switch", "cause", "first", "count"), plan)) for plan in plans))
        found = " finds plan %d %d %d %d" % (q["switch"], q["cause"], q["first"], q["count"])
        c.same("plan %d %d" % (switch, cause), found, trials.shown(switch, cause, s)[-len(found):])


def follow(c, word, model, end):
    """The lines of a model's calls, as the definitions at an end give them."""
    script, lines = model.script, iter(model.lines)
    while script and script[:1] != b"?":
        letter, _, length = struct.unpack(">BBH", script[:4])
        body, script = script[4:4 + length], script[4 + length:]
        found = "%s 0 %s" % (word, end.call(chr(letter), body))
        c.same("call %s of %s" % (chr(letter), body.hex()), found, next(lines))


def calls(c):
    """Calls at one switch and at one controller: those that `drive` is given, all of the long list at the switch, and
    random ones at the controller."""
    follow(c, "switch", drills.drill(True), SwitchCalls(c))
    follow(c, "controller", duties.duty(False), ControllerCalls(c))
    more = duties.Duty(True)
    for seed in range(4):
        duties.at_random(more, seed, 40)
    follow(c, "controller", more, ControllerCalls(c))


def ideal(changes, numbers):
    """Document 01's ideal controller: the tables, the numbers made and those refused."""
    tables, made, refused = [{} for _ in range(16)], [], []
    for k in numbers:
        u = next((u for u in changes if u[0] == k), None)
        if u is None or k in made or any(
                v[0] < k and v[0] not in made and (v[3] == u[3] or v[1:3] == u[1:3]) for v in changes):
            refused.append(k)
            continue
        prefix, length, port = u[4]
        tables[u[3]].pop((prefix, length), None)
        if port:
            tables[u[3]][prefix, length] = port
        made.append(k)
    return [sorted(key + (port,) for key, port in table.items()) for table in tables], made, refused


class Run:
    """Calls at all ends by the definitions, beside the models; the last of four controllers strays."""
    N, STRAY, BOOK = 4, 3, duties.EVENING
    AGREED = [(5, 1, 1), (5, 1, 1), (0, 1, 255), (16, 1, 1), (5, 4, 1), (5, 5, 2), (0, 2, 255)]

    def __init__(self, c, seed):
        self.c, self.random, self.log = c, random.Random(seed), []
        self.setting = {
            "n": self.N, "strays": Function(1, lambda i: now(i) == self.STRAY), "book": tuple(self.BOOK.bytes()),
            "key": Function(2, lambda i, s: tuple(key(now(i), now(s)))),
            "agreed": tuple(dict(zip(("switch", "serial", "cause"), d)) for d in self.AGREED)}
        self.state = self.of("start", self.setting)
        self.switches = [drills.Switch(s, self.N) for s in range(16)]
        self.controllers = [duties.Controller(i, self.N, self.BOOK) for i in range(self.N)]
        self.stores = {"Switch": [b"".join(key(i, s) for i in range(self.N)) for s in range(16)],
                       "Controller": [b"".join(key(i, s) for s in range(16)) for i in range(self.N)]}
        self.brought = [[] for _ in range(self.N)]

    def of(self, name, *arguments):
        return self.c.of["domain", name](*arguments)

    def call(self, end, i, what, parts, answer):
        """A call by the definitions, and what it wrote; the model's answer is there."""
        self.state = self.of("step", self.setting, self.state, Built("at_" + end.lower(), (i, Built(what, parts))))
        self.log.append((i, what, parts, answer))
        self.c.same("call %d of a run" % len(self.log), self.state["log"][0]["answer"], answer)
        return bytes(self.state["log"][0]["written"])

    def receives(self, end, i, s):
        model = (self.switches if end == "Switch" else self.controllers)[i]
        answer = model.receive(self.stores[end][i], s)
        self.call(end, i, "receives", (tuple(s),), answer if end == "Switch" else answer[0])

    def wrote(self, end, i, what, parts, model, to):
        """A message written by the definitions and by the model, and received at the other end."""
        answer, frame = model
        bytes_written = self.call(end, i, what, parts, answer)
        if answer == 0:
            self.c.same("%s by %d" % (what, i), bytes_written, bytes(frame[:len(bytes_written)]))
            self.receives("Controller" if end == "Switch" else "Switch", to, bytes_written)

    def turn(self):
        """A random call, or two."""
        r = self.random
        i, s, what = r.randrange(self.STRAY), r.choice((0, 2, 5, 7, 9)), r.randrange(8)
        if what < 2 and len(self.brought[i]) < len(self.AGREED):
            d = self.AGREED[len(self.brought[i])]
            self.brought[i].append((d, self.controllers[i].decide(*d)))
            self.call("Controller", i, "manages", (Built("decides", d),), self.brought[i][-1][1])
        elif what < 5:
            self.wrote("Controller", i, "writes_share", (s, (0xEE,) * SHARE.length, 0),
                       self.controllers[i].write(self.stores["Controller"][i], SHARE.length, s, 0), s)
        elif what < 7:
            name, kind = r.choice((("event", EVENT), ("acknowledgement", ACKNOWLEDGEMENT)))
            self.wrote("Switch", s, "writes", (Built(name), i, (0xEE,) * kind.length, 0),
                       self.switches[s].write(self.stores["Switch"][s], kind, kind.length, i, 0), i)
        elif r.randrange(2):
            self.call("Switch", s, "manages", (Built("raises", (7,)),), self.switches[s].raise_event(7))
        else:
            rule = (0x0A000000, 8, r.choice((0, 3, 9)))
            self.receives("Switch", s, share(self.STRAY, s, r.randrange(1, 6), rule))

    def agreed_changes(self):
        """By the models: a controller that takes the agreed list, all its changes done at once."""
        course, changes = duties.Controller(0, self.N, self.BOOK), []
        for d in self.AGREED:
            if course.decide(*d) == 0:
                changes += course.undone()
                course.acknowledged = [course.last] * 16
                course.hold([])
        return changes

    def compare(self):
        same, log, made = self.c.same, self.state["log"], self.of("made", self.state["log"])
        for s, model in enumerate(self.switches):
            same("switch %d" % s, SwitchCalls.text(apply(self.state["switches"], s)), model.show())
            same("highest made at %d" % s, self.of("highest", self.of("numbers_at", s, made)), model.last)
        for i, model in enumerate(self.controllers[:self.STRAY]):
            same("controller %d" % i, ControllerCalls.text(apply(self.state["controllers"], i)), model.show())
            decisions(self.c, i, log, self.brought[i])
        one = [(i, int.from_bytes(bytes(parts[0][3:7]), "big")) for i, what, parts, answer in self.log if answer == 1]
        same("made", [(m["switch"], m["number"]) for m in made], one[::-1])
        numbers = self.of("answered", self.setting, self.state)
        same("answered", numbers, tuple(number for _, number in one[::-1]))
        changes = self.agreed_changes()
        agreed = self.of("agreed_changes", self.of("playbook", self.setting), self.setting["agreed"])
        told = [(u["number"], u["first"], u["flow"], u["switch"], rule_text(u["rule"])) for u in agreed]
        same("agreed changes", told, [u[:4] + (duties.rule_shown(u[4]),) for u in changes])
        for order in (numbers, self.c.of["protocol", "falling"](numbers)):
            tables = self.fed(agreed, changes, order)
            same("tables", tables, [model.entries for model in self.switches])
        for _ in range(12):
            k = len(changes)
            about = sorted(range(1, k + 1), key=lambda number: -number + self.random.randrange(-2, 3))
            self.fed(agreed, changes, tuple(about)[self.random.randrange(k):])
            self.fed(agreed, changes, tuple(self.random.randrange(k + 3) for _ in range(6)))

    def fed(self, agreed, changes, numbers):
        """The ideal tables after some numbers, the last of them fed first."""
        found, (tables, made, refused) = self.of("fed", agreed, numbers), ideal(changes, numbers[::-1])
        self.c.same("made of %s" % (numbers,), found["made"], tuple(made[::-1]))
        self.c.same("refused of %s" % (numbers,), found["refused"], tuple(refused[::-1]))
        all_tables = [apply(found["tables"], s) for s in range(16)]
        self.c.same("tables of %s" % (numbers,), [
            [(e["prefix"], e["length"], e["port"]) for e in t["entries"][:t["count"]]] for t in all_tables], tables)
        return tables


def decisions(c, i, log, brought):
    """What a log says that a controller was brought and took, beside the decisions with their answers."""
    for name, counts in (("brought", lambda answer: answer != 24), ("taken", lambda answer: answer == 0)):
        found = [tuple(d.values()) for d in c.of["domain", name](i, log)]
        c.same("%s by %d" % (name, i), found, [d for d, answer in brought if counts(answer)])


def runs(c):
    """Runs with the ideal controller; and numbers and logs that no run has."""
    for seed in range(3):
        run = Run(c, seed)
        for _ in range(60):
            run.turn()
        run.compare()
    r = random.Random(7)
    for _ in range(60):
        some = tuple(r.randrange(9) for _ in range(r.randrange(6)))
        c.same("highest of %s" % (some,), c.of["domain", "highest"](some), max(some, default=0))
        c.same("%s falling" % (some,), c.of["protocol", "falling"](some), tuple(sorted(some)[::-1]))
    some = [(r.randrange(2), (r.randrange(16), r.randrange(9), r.randrange(9)), r.choice((0, 12, 22, 23, 24)))
            for _ in range(40)]
    log = tuple({"call": Built("at_controller", (i, Built("manages", (Built("decides", d),)))), "answer": answer}
                for i, d, answer in some[::-1])
    decisions(c, 1, log, [(d, answer) for i, d, answer in some if i == 1])


def examples(c):
    """What definitions themselves write down: the rows of the edges, and the evening; after it full rounds make all."""
    example, evening = c.of["edges", "example"], c.of["witness", "evening"]
    for row in c.of["edges", "table"](example) + c.of["edges", "beside"](example):
        c.same("edge %r" % row["0"], c.of["edges", "answer_to"](example, row["0"]), row["1"])
    state = c.of["domain", "start"](evening)
    changes = c.of["domain", "changes_of"](evening, evening["agreed"])
    for calls, left in ((c.of["witness", "evening_calls"], 1), (None, 0)):
        for call in calls or c.of["witness", "rounds"](evening, 1, state):
            state = c.of["domain", "step"](evening, state, call)
        if calls:
            c.same("the evening", tuple(d["answer"] for d in state["log"][::-1]), c.of["witness", "answers"])
        c.same("changes unmade", c.of["domain", "unmade"](evening, changes, state), left)


def scripted(seed):
    """An input with records of every kind at few ends, so that changes are made and shares are kept."""
    r = random.Random(seed)
    script = b"".join(struct.pack(">BBBIB", 0x21, i, 5, 1, 1) for i in range(2))
    for _ in range(24):
        i, s, place = r.randrange(3), r.choice((2, 2, 5, 16)), r.choice((0, 1, 63, 64))
        script += r.choice((bytes([0x22, i, s]), bytes([0x22, i, s]), bytes([0x22, i, s]), bytes([0x23, s, i]),
                            bytes([0x24, s]) + share(2, s, r.randrange(3), duties.A),
                            bytes([0x25, i, s, place]), bytes([0x25, i, s, place]), bytes([0x26, place]),
                            struct.pack(">BBBIB", 0x21, i, r.choice((5, 16)), r.randrange(1, 4), 1)))
    return bytes([3 + seed % 2]) + duties.EVENING.bytes() + script


def applied(c, name, s, switches):
    """What switches applied in a rehearsal, each rule with its number; their FLOW_MODs, with room for them or one byte
    less."""
    for switch in switches:
        found = c.of["feed", "applied_of"](switch, tuple(s))
        rules = tuple((slot["number"], rule_text(slot["rule"])) for slot in found["rules"][:found["count"]])
        answer, mods = flowmods.applied(bytes([switch]) + s)
        c.same("%s at switch %d" % (name, switch), (found["answer"], rules),
               (answer, tuple((number, duties.rule_shown(rule)) for number, rule in mods)))
        wanted = flowmods.in_bytes(mods)
        for room in {len(wanted), max(len(wanted) - 1, 0)}:
            w = c.of["feed", "mods_written"](c.of["feed", "rules_in"](found), (0,) * room)
            fits = len(wanted) <= room
            c.same("FLOW_MODs of %s at switch %d in %d bytes" % (name, switch, room),
                   (w["0"]["answer"], w["0"]["length"], bytes(w["1"])),
                   (0, len(wanted), wanted) if fits else (25, 0, bytes(room)))


def rehearsed(c):
    """Inputs with random scripts; what each case of tests/cases is before its script, and the shorter ones whole."""
    inputs = [("script %d" % seed, scripted(seed)) for seed in range(8)]
    inputs += [(name, s) for name, s, lines in rehearsals.cases()]
    for name, s in inputs:
        if len(s) <= LONGEST and len(trials.read_first(s[1:])[3]) <= MOST_CHANGES:
            begun = c.of["rehearsal", "begun_of"](tuple(s))
            c.same(name + " begun", begun.parts[0] if begun.case == "Err" else 0, rehearsals.begun(s)[0])
            lines = rehearsals.rehearse(s)
            if len(lines) <= MOST_LINES or name.startswith("script"):
                printed = c.of["rehearsal", "rehearsed"](tuple(s), (0,) * 1000)
                c.same(name, bytes(printed["1"][:printed["0"]["length"]]), rehearsals.text(lines))
                if name.startswith("script"):
                    applied(c, name, s, (2, 16))


def written(c):
    """FLOW_MODs written into frames: the calls that `drive` is given, the length beside them. What was written tells
    number and rule."""
    for what in flowmods.writings(True).asked:
        size, offset, number, *fields = what
        w = c.of["openflow", "flow_mod_written"](number, rule_of(*fields), (0xEE,) * size, offset)
        answer, length, frame = flowmods.called(*what)
        found = w["0"]["answer"], w["0"]["length"], bytes(w["1"])
        c.same("FLOW_MOD %s" % (what,), found, (answer, length, frame))
        if answer == 0:
            s = tuple(frame[offset:offset + length])
            c.same("number in %s" % (s,), c.of["openflow", "number_in"](s), number)
            c.same("rule in %s" % (s,), rule_text(c.of["openflow", "rule_in"](s)), rule_text(rule_of(*fields)))


def main():
    c = Compared(sys.argv[1] if sys.argv[1:] else ".")
    for part in (tags, messages, written, calls, runs, examples, playbooks, rehearsed):
        part(c)
    print("%d comparisons" % c.count)
    return 0


if __name__ == "__main__":
    sys.exit(evaluate.deeply(main))
