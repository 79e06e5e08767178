"""Surveys of inputs, computed from document 01 with Python's own library: what is wrong before the script, in words, or
what the playbook uses of each limit.

    python3 tests/surveys.py FILE                   the survey of an input
    python3 tests/surveys.py compare PROGRAM FILE.. which inputs the program surveys otherwise: these, and made-up ones

Nothing here is taken from the crates but the wording. Names and numbers are document 01's.
"""
import subprocess
import sys

from paper import PLAYBOOK, read_first, record, record_at
from rehearsals import begun

# So many bytes are read: the longest input that has a text, and one more.
ROOM = 16385
LONGEST_SCRIPT = 8192
MALFORMED = "a length above 32, or bits of the address past its length"
FAULTS = {
    12: "the switches are 0 to 15",
    15: MALFORMED,
    20: "there can be 1 to 16 controllers",
    30: "the input stops before the playbook's end",
    31: "a playbook has plans and changes only, and ends with end",
    34: "a change stands before any plan",
    35: "two plans have the same switch and cause",
}
PREFIXES = "more than 64 different prefixes with lengths on one switch, switch %d"


def book_records(book):
    """The playbook's records as far as they are whole: name, fields and where each ends."""
    at = 0
    while at < len(book):
        found = record_at(PLAYBOOK, book[at:])
        if found in (30, 31):
            return
        name, length, given = found
        at += length
        yield name, given, at


def at_fault(book):
    """How many whole records stand before the one at which a playbook is refused, and that record."""
    passed = []
    for name, given, end in book_records(book):
        if read_first(book[:end] + record("end"))[0] != 0:
            return passed, (name, given)
        passed.append(name)
    return passed, (None, None)


def has_record(answer):
    return answer not in (20, 28, 30)


def ordinal(s, answer):
    """The record at fault, from 1, or 0 for none."""
    return len(at_fault(s[1:])[0]) + 1 if has_record(answer) else 0


def passed_limit(book):
    """Which limit of question 36 a playbook passes."""
    before, (name, _) = at_fault(book)
    if name == "plan":
        return "more than 64 plans"
    of_plan = len(before) - max(i for i, other in enumerate(before) if other == "plan")
    return "more than 32 changes in a plan" if of_plan > 32 else "more than 512 changes"


def words(s, answer, room):
    """What is wrong with an input that was read into so many bytes, and is refused before its script."""
    if answer == 36:
        return passed_limit(s[1:])
    if answer == 37:
        return PREFIXES % at_fault(s[1:])[1][1][1]
    if answer == 28:
        more = len(s) - 1 - read_first(s[1:])[1] - LONGEST_SCRIPT
        return "the script is longer than 8192 bytes, by %d%s" % (more, " or more" if len(s) == room else "")
    return FAULTS[answer]


def uses(s):
    """What a playbook that is taken uses of each limit."""
    found = list(book_records(s[1:]))
    found = found[:[name for name, _, _ in found].index("end") + 1]
    yield "0 %d" % len(found)
    plans, changes, keys = [], 0, {}
    for name, given, end in found:
        if name == "plan":
            plans.append([given, 0])
        elif name == "change":
            plans[-1][1] += 1
            changes += 1
            keys.setdefault(given[1], set()).add(given[2:4])
    yield "%d of 64 plans" % len(plans)
    yield "%d of 512 changes" % changes
    most = max((count for _, count in plans), default=0)
    whose = next((", that of switch %d and cause %d" % given for given, count in plans if count == most > 0), "")
    yield "%d of 32 changes in one plan%s" % (most, whose)
    for switch in sorted(keys):
        yield "%d of 64 prefixes with lengths on switch %d" % (len(keys[switch]), switch)
    yield "%d of 8192 bytes of script" % (len(s) - 1 - found[-1][2])


def survey(s):
    s = s[:ROOM]
    answer = begun(s)[0]
    if answer == 0:
        return "".join(line + "\n" for line in uses(s))
    return "%d %d\nrefused, %s\n" % (answer, ordinal(s, answer), words(s, answer, ROOM))


def made_up():
    """Inputs at and past each limit."""
    end, send = record("end"), record("send", 0, 1)

    def plan(k):
        return record("plan", k // 4, k % 4)

    def change(k, switch=1):
        return record("change", 0, switch, 10 << 24 | k << 8, 24, 3)

    def book(*parts):
        return b"\x04" + b"".join(parts)

    full = [part for k in range(16) for part in [plan(k)] + [change(i) for i in range(32)]]
    for n in (0, 1, 16, 17, 255):
        yield bytes([n]) + end
    yield from (b"", b"\x04", b"\x04" + plan(0), book(plan(0), b"\x12\x00"), book(plan(0), b"\x14", end))
    yield from (book(change(0), end), book(plan(0), plan(0), end), book(record("plan", 16, 0), end))
    yield from (book(plan(0), change(0, 16), end), book(plan(0), record("change", 0, 1, 1, 24, 3), end))
    yield from (book(*map(plan, range(64)), end), book(*map(plan, range(65)), end))
    yield from (book(plan(0), *map(change, range(32)), end), book(plan(0), *map(change, range(33)), end))
    yield from (book(*full, end), book(*full, plan(40), change(0), end), book(*full, change(0), end))
    keys = [plan(0), *map(change, range(32)), plan(1), *map(change, range(32, 64)), plan(2)]
    yield from (book(*keys, change(5), end), book(*keys, change(64), end), book(*keys, change(64, 15), end))
    yield from (book(plan(0), plan(1), *map(change, range(3)), end, send), book(plan(0), plan(1), end), book(end))
    for script in (b"\x26\x00" * 4096, b"\x26\x00" * 4096 + b"\x26", b"\x26\x00" * 4100, b"\x26\x00" * 20000):
        yield book(plan(0), change(0), end, script)
    yield from (book(*full, end, b"\x26\x00" * 4096), book(*full, end, b"\x26\x00" * 8000))


def compare(program, inputs):
    for name, s in inputs:
        done = subprocess.run([program], input=s, stdout=subprocess.PIPE)
        if done.returncode != 0 or done.stdout.decode() != survey(s):
            yield "%s is surveyed otherwise: %s, not %s" % (name, done.stdout.decode(), survey(s))


def main():
    if len(sys.argv) == 2:
        sys.stdout.write(survey(open(sys.argv[1], "rb").read()))
        return
    if len(sys.argv) < 3 or sys.argv[1] != "compare":
        sys.exit(__doc__)
    inputs = [(name, open(name, "rb").read()) for name in sys.argv[3:]]
    inputs += [("made-up input %d" % k, s) for k, s in enumerate(made_up(), 1)]
    sys.exit("\n".join(compare(sys.argv[2], inputs)) or 0)


if __name__ == "__main__":
    main()
