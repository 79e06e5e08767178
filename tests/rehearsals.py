"""Rehearsals, worked out from document 01 with Python's own library: the playbook, the script, both ends and the lines.

    python3 tests/rehearsals.py FILE        the lines for an input
    python3 tests/rehearsals.py cases       which cases have other lines, or are told otherwise in EVENINGS.md there

Nothing here is taken from the crates. Names and numbers are document 01's. The cases are texts in the notation, which
tests/notation.py turns into bytes.
"""
import glob
import os
import re
import sys

from drills import Switch
from duties import Book, Controller
from notation import assemble
from paper import ACKNOWLEDGEMENT, SCRIPT, SHARE, controller_keys, read_first, record_at, switch_keys

HERE = os.path.dirname(os.path.abspath(__file__))
CASES, EXAMPLES = os.path.join(HERE, "cases"), os.path.join(HERE, "..", "examples")
LONGEST_SCRIPT = 8192


class Rehearsal:
    """The ends of one domain, the places, and what was applied (switch, number, rule). Each record's call gives its
    answer and figure."""

    def __init__(self, n, book):
        self.n = n
        self.controllers = [Controller(c, n, book) for c in range(n)]
        self.switches = [Switch(s, n) for s in range(16)]
        self.places, self.applied = [None] * 64, []

    def known(self, switch, controller=0):
        return switch <= 15 and controller < self.n

    def made(self, controller, switch):
        """The answer, and the current share."""
        keys = controller_keys(controller)
        answer, frame = self.controllers[controller].write(keys, SHARE.length, switch, 0)
        return answer, bytes(frame[:SHARE.length])

    def delivered(self, switch, share):
        end = self.switches[switch]
        answer = end.receive(switch_keys(switch, self.n), share)
        if answer == 1:
            _, _, number, *rule = SHARE.fields(share)
            self.applied.append((switch, number, tuple(rule)))
        return answer, end.last

    def decide(self, controller, switch, serial, cause):
        if not self.known(switch, controller):
            return 12, 0
        end = self.controllers[controller]
        return end.decide(switch, serial, cause), end.count

    def send(self, controller, switch):
        if not self.known(switch, controller):
            return 12, 0
        answer, share = self.made(controller, switch)
        return self.delivered(switch, share) if answer == 0 else (answer, self.switches[switch].last)

    def report(self, switch, controller):
        if not self.known(switch, controller):
            return 12, 0
        size, end = ACKNOWLEDGEMENT.length, self.controllers[controller]
        answer, frame = self.switches[switch].write(switch_keys(switch, self.n), ACKNOWLEDGEMENT, size, controller, 0)
        if answer == 0:
            answer, _ = end.receive(controller_keys(controller), bytes(frame[:size]))
        return answer, end.count

    def raw(self, switch, share):
        return self.delivered(switch, share) if self.known(switch) else (12, 0)

    def keep(self, controller, switch, place):
        if not self.known(switch, controller):
            return 12, 0
        if place > 63:
            return 29, 0
        answer, share = self.made(controller, switch)
        if answer == 0:
            self.places[place] = switch, share
        return answer, self.switches[switch].last

    def deliver(self, place):
        if place > 63:
            return 29, 0
        return self.delivered(*self.places[place]) if self.places[place] else (26, 0)

    def record(self, s):
        """The record that s begins with: its length, or none where the run stops, its answer and its figure."""
        found = record_at(SCRIPT, s)
        if found in (30, 31):
            return None, found, 0
        call, length, fields = found
        return (length,) + getattr(self, call)(*fields)


def begun(s):
    """What an input is before its script: the number that refuses it, or 0; the ends, and the script."""
    if not s:
        return 30, None, b""
    if not 1 <= s[0] <= 16:
        return 20, None, b""
    answer, used, plans, changes = read_first(s[1:])
    if answer != 0:
        return answer, None, b""
    script = s[1 + used:]
    if len(script) > LONGEST_SCRIPT:
        return 28, None, b""
    changes = [(flow, switch, (prefix, length, port)) for flow, switch, prefix, length, port in changes]
    book = Book([((switch, cause), changes[first:first + count]) for switch, cause, first, count in plans])
    return 0, Rehearsal(s[0], book), script


def ended(s):
    """An input rehearsed to its end: the number that refuses it before its script, or 0; the ends, and the lines."""
    refused, rehearsal, script = begun(s)
    lines = ["0 %d 0" % refused] if refused else []
    while script:
        length, answer, figure = rehearsal.record(script)
        lines.append("%d %d %d" % (len(lines) + 1, answer, figure))
        script = script[length:] if length else b""
    return refused, rehearsal, lines


def rehearse(s):
    """The lines for an input."""
    return ended(s)[2]


def text(lines):
    return "".join(line + "\n" for line in lines).encode()


def told():
    """The evenings: a name, the input and the lines, from the rows of the tables under a heading with that name."""
    with open(os.path.join(CASES, "EVENINGS.md"), encoding="utf-8") as page:
        parts = re.split(r"^## .*`([\w-]+)`$", page.read(), flags=re.MULTILINE)
    for name, part in zip(parts[1::2], parts[2::2]):
        rows = re.findall(r"^\|[^|]*\| `([^`|]+)` \|(?: `([0-9 ]+)`)? \|", part, flags=re.MULTILINE)
        yield name, assemble("\n".join(row[0] for row in rows).encode()), text(row[1] for row in rows if row[1])


def held(path):
    with open(path, "rb") as file:
        return file.read()


def cases():
    """The cases: a name, the input and the lines. The evenings' texts are examples, the others stand beside them."""
    for path in sorted(glob.glob(os.path.join(CASES, "*.txt")) + glob.glob(os.path.join(EXAMPLES, "*-evening.txt"))):
        name = os.path.basename(path)[:-len(".txt")]
        yield name, assemble(held(path)), held(os.path.join(CASES, name + ".out"))


def compare():
    """The cases for which something else is worked out, and the evenings that are told otherwise."""
    known = {name: (s, lines) for name, s, lines in cases()}
    for name, (s, lines) in known.items():
        if isinstance(s, str):
            yield "the text of %s has a fault: %s" % (name, s)
        elif text(rehearse(s)) != lines:
            yield "%s.out is not what is worked out for %s" % (name, name)
    evenings = list(told())
    for name, s, lines in evenings:
        if (s, lines) != known.get(name):
            yield "EVENINGS.md and the case %s differ" % name
    if not known or not evenings:
        yield "no cases, or no evenings"


def main():
    if len(sys.argv) != 2:
        sys.exit(__doc__)
    if sys.argv[1] == "cases":
        sys.exit("\n".join(compare()) or 0)
    sys.stdout.buffer.write(text(rehearse(held(sys.argv[1]))))


if __name__ == "__main__":
    main()
