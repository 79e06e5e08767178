"""The calls of tests/drills.py and tests/duties.py made by the definitions, run as text: each gives the line that the
model has for it. A call is a letter with its bytes, as the program drive takes them (tests/DRIVE.md)."""
import struct

from evaluate import Built, stored
from paper import FRAME


def of_action(action):
    return "remove" if action.case == "Remove" else "set %d" % action.parts


def rule_text(rule):
    return "%d %d %s" % (rule["prefix"], rule["length"], of_action(rule["action"]))


def rule_of(prefix, length, kind, port):
    action = Built("Set", (port,)) if kind else Built("Remove")
    return {"prefix": prefix, "length": length, "action": action}


EMPTY = "0 0 remove"


class SwitchCalls:
    """The calls of tests/drills.py, by the definitions; each gives the line that the model has."""

    def __init__(self, c):
        self.of = lambda name, *arguments: c.of["switch", name](*arguments)
        self.flow, self.state, self.keys = c.of, c.of["switch", "fresh"](0, 0), ()

    @staticmethod
    def text(s):
        table, raised = s["table"], s["raised"]
        text = " state %d %d %d %d %d count %d" % (
            s["id"], s["n"], s["last"], raised["serial"], raised["cause"], table["count"])
        for i, e in enumerate(table["entries"]):
            if any(e.values()):
                text += " entry %d %d %d %d" % (i, e["prefix"], e["length"], e["port"])
        for i, slot in enumerate(s["slots"]):
            if slot["number"] or rule_text(slot["rule"]) != EMPTY:
                text += " slot %d %d %s" % (i, slot["number"], rule_text(slot["rule"]))
        return text

    def replied(self, word, reply, more=""):
        self.state = reply["state"]
        return "%s %d%s%s" % (word, reply["answer"], self.text(self.state), more)

    def alter(self, field, rest):
        s, table = self.state, self.state["table"]
        if field < 3:
            return dict(s, **{("id", "n", "last")[field]: int.from_bytes(rest, "big")})
        if field == 3:
            return dict(s, raised=dict(zip(("serial", "cause"), struct.unpack(">IB", rest))))
        if field == 4:
            i, number, *rule = struct.unpack(">BIIBBH", rest)
            return dict(s, slots=stored(s["slots"], i, {"number": number, "rule": rule_of(*rule)}))
        if field == 5:
            i, *entry = struct.unpack(">BIBH", rest)
            entry = dict(zip(("prefix", "length", "port"), entry))
            return dict(s, table=dict(table, entries=stored(table["entries"], i, entry)))
        return dict(s, table=dict(table, count=rest[0]))

    def call(self, letter, body):
        if letter == "K":
            self.keys = tuple(body)
            return "keys %d" % len(body)
        if letter == "X":
            self.state = self.alter(body[0], body[1:])
            return "altered"
        if letter == "S":
            return self.replied("setup", self.of("setup_of", *body))
        if letter == "M":
            return self.replied("received", self.of("received_by", self.state, self.keys, tuple(body)))
        if letter == "R":
            return self.replied("raised", self.of("raised_by", self.state, body[0]))
        if letter == "I":
            r = self.of("next_event", self.state["raised"], body[0])
            return self.replied("raised in place", dict(r, state=dict(self.state, raised=r["raised"])))
        if letter in "EA":
            length, controller, offset = struct.unpack(">BBQ", body)
            name = "event_written" if letter == "E" else "acknowledgement_written"
            w = self.of(name, self.state, self.keys, controller, (0xEE,) * length, offset)
            return self.replied("written", w["0"], " frame " + bytes(w["1"]).hex() + "ee" * (FRAME - length))
        if letter == "Q":
            return "quorum %d" % self.of("quorum_of", body[0])
        address = int.from_bytes(body, "big")
        if letter == "T":
            found = self.flow["flow", "lookup_of"](address, self.flow["flow", "entries_of"](self.state["table"]))
        else:
            found = self.of("looked_up", self.state, address)
        return ("forwarded " if letter == "T" else "looked up ") + self.found(found)

    @staticmethod
    def found(found):
        """What a lookup comes to: a refusal, or a port or none."""
        if found.case == "Ok":
            found = found.parts[0]
        word = {"Err": "refused", "Some": "port", "None": "nothing"}.get(found.case, found.case.lower())
        return " ".join([word] + [str(part) for part in found.parts])


class ControllerCalls:
    """The calls of tests/duties.py, likewise."""

    def __init__(self, c):
        self.of = lambda name, *arguments: c.of["controller", name](*arguments)
        self.playbook, self.keys = c.of, ()
        self.book = c.of["playbook", "store_of"](c.of["playbook", "no_plans"])
        self.state = self.of("fresh", 0, 0, self.book)

    @staticmethod
    def book_text(p):
        text = " book %d %d" % (p["planned"], p["listed"])
        for i, q in enumerate(p["plans"]):
            if any(q.values()):
                text += " plan %d %d %d %d %d" % (i, q["switch"], q["cause"], q["first"], q["count"])
        for i, x in enumerate(p["changes"]):
            if x["flow"] or x["switch"] or rule_text(x["rule"]) != EMPTY:
                text += " change %d %d %d %s" % (i, x["flow"], x["switch"], rule_text(x["rule"]))
        return text

    @staticmethod
    def text(s):
        p, book = s["progress"], s["playbook"]
        text = " state %d %d %d book %d %d" % (s["id"], s["n"], p["last"], book["planned"], book["listed"])
        for word, field in (("acknowledged", "acknowledged"), ("serial", "serials")):
            text += "".join(" %s %d %d" % (word, i, k) for i, k in enumerate(p[field]) if k)
        text += " count %d" % p["undone"]["count"]
        for i, u in enumerate(p["undone"]["changes"]):
            numbers = u["number"], u["first"], u["flow"], u["switch"]
            if any(numbers) or rule_text(u["rule"]) != EMPTY:
                text += " undone %d %d %d %d %d %s" % (i, *numbers, rule_text(u["rule"]))
        return text

    def replied(self, word, reply, more=""):
        self.state, offer = reply["state"], reply["offer"]
        offered = " offered %(switch)d %(serial)d %(cause)d" % offer.parts[0] if offer.case == "Some" else ""
        return "%s %d%s%s%s" % (word, reply["answer"], offered, self.text(self.state), more)

    def alter(self, field, rest):
        s, p, book = self.state, self.state["progress"], self.state["playbook"]
        undone = p["undone"]
        if field < 2:
            return dict(s, **{("id", "n")[field]: rest[0]})
        if field == 2:
            return dict(s, progress=dict(p, last=int.from_bytes(rest, "big")))
        if field < 5:
            name, (i, k) = ("acknowledged", "serials")[field - 3], struct.unpack(">BI", rest)
            return dict(s, progress=dict(p, **{name: stored(p[name], i, k)}))
        if field == 5:
            i, number, first, flow, switch, *rule = struct.unpack(">BIIBBIBBH", rest)
            u = {"number": number, "first": first, "flow": flow, "switch": switch, "rule": rule_of(*rule)}
            return dict(s, progress=dict(p, undone=dict(undone, changes=stored(undone["changes"], i, u))))
        if field == 6:
            return dict(s, progress=dict(p, undone=dict(undone, count=rest[0])))
        if field == 7:
            return dict(s, playbook=dict(book, **dict(zip(("planned", "listed"), struct.unpack(">BH", rest)))))
        if field == 8:
            i, *plan = struct.unpack(">BBBHB", rest)
            plan = dict(zip(("switch", "cause", "first", "count"), plan))
            return dict(s, playbook=dict(book, plans=stored(book["plans"], i, plan)))
        i, flow, switch, *rule = struct.unpack(">HBBIBBH", rest)
        change = {"flow": flow, "switch": switch, "rule": rule_of(*rule)}
        return dict(s, playbook=dict(book, changes=stored(book["changes"], i, change)))

    def call(self, letter, body):
        if letter == "k":
            self.keys = tuple(body)
            return "keys %d" % len(body)
        if letter == "x":
            self.state = self.alter(body[0], body[1:])
            return "altered"
        if letter in "bf":
            r = self.playbook["playbook", "read_whole" if letter == "b" else "read_first"](tuple(body))
            self.book = r["playbook"]
            if letter == "b":
                return "read %d%s" % (r["answer"], self.book_text(self.book))
            return "read first %d %d%s" % (r["answer"], r["used"], self.book_text(self.book))
        if letter == "p":
            return "holds" + self.book_text(self.state["playbook"])
        if letter == "s":
            return self.replied("setup", self.of("setup_of", *body, self.book))
        if letter == "m":
            return self.replied("received", self.of("received_by", self.state, self.keys, tuple(body)))
        if letter == "d":
            return self.replied("decided", self.of("decided_by", self.state, *struct.unpack(">BIB", body)))
        length, switch, offset = struct.unpack(">BBQ", body)
        w = self.of("share_written", self.state, self.keys, switch, (0xEE,) * length, offset)
        return self.replied("written", w["0"], " frame " + bytes(w["1"]).hex() + "ee" * (FRAME - length))
