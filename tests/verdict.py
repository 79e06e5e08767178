"""The verdict that ends an explanation, computed from document 01 and the definitions below with Python's own library.

1.  Of n controllers at most floor((n-1)/3) may stray.
2.  A controller's decisions are the (switch, serial, cause) of its decide records with answer 0, in order.
3.  The agreed decisions: of all controllers' lists, the one of which the most controllers' lists are a beginning; of
    several such the longest; of several such that of the lowest controller.
4.  A controller deviates if its list is no beginning of the agreed one.
5.  A controller is late if its list is a beginning of the agreed one, and shorter.
6.  A controller is made up for if a raw share in its name arrived at a switch with a matching tag (answer 0, 1, 2, or 15
    to 19), and it made no share with this switch, number and rule by an earlier send or keep.
7.  Strays are those that deviate or are made up for.
8.  Agreed changes are those that the playbook plans for the agreed decisions, numbered from 1 in order. One is made if
    some record was answered 1 with its number, switch and rule.
9.  A controller was not told of those of its undone changes whose number is not above their switch's last applied one.
10. Usual refusals are 2, 16 and 26, but for the 26 of a deliver whose place is empty. All others are 10 and above.
"""
import itertools

from paper import SCRIPT, SHARE, record_at
from rehearsals import begun

ITEMS = 24
USUAL = {2: ("repeat", "repeats"), 16: ("too late",) * 2, 26: ("with nothing ready",) * 2}
MATCHED = (0, 1, 2, 15, 16, 17, 18, 19)


def route(rule):
    prefix, length, port = rule
    address = ".".join(str(prefix >> shift & 255) for shift in (24, 16, 8, 0))
    return "%s/%d %s" % (address, length, "to port %d" % port if port else "removed")


def joined(items):
    """Items of a list, each with how many numbers it stands for: the first ones, and how many numbers are left."""
    texts = [text for text, _ in items[:ITEMS]]
    left = sum(size for _, size in items[ITEMS:])
    if left:
        texts.append("%d more" % left)
    return " and ".join(filter(None, (", ".join(texts[:-1]), texts[-1])))


def ranges(numbers, mark=lambda number: ""):
    """Rising numbers, three or more in a row with one mark as a range."""
    numbers, items = list(numbers), []
    rows = itertools.groupby(enumerate(numbers), lambda pair: (pair[1] - pair[0], mark(pair[1])))
    for (_, sign), row in rows:
        row = [number for _, number in row]
        if len(row) > 2:
            items.append(("%d to %d%s" % (row[0], row[-1], sign), len(row)))
        else:
            items += [("%d%s" % (number, sign), 1) for number in row]
    return joined(items)


def named(name, numbers, mark=lambda number: ""):
    """As switch 5, or switches 5 and 6."""
    many = name + ("es" if name == "switch" else "s")
    return "%s %s" % (name if len(numbers) == 1 else many, ranges(numbers, mark))


def event(decision):
    return "event %d of switch %d, cause %d" % (decision[1], decision[0], decision[2])


class Evening:
    """What happened in a rehearsal: the facts that a verdict is made of."""

    def __init__(self, s):
        _, self.world, script = begun(s)
        self.n = self.world.n
        self.decided = [[] for _ in range(self.n)]
        self.applied, self.answers, self.shares, self.made_up = [], [], set(), set()
        while script:
            length = self.record(script)
            script = script[length:] if length else b""

    def record(self, s):
        found = record_at(SCRIPT, s)
        share, sender, switch = None, None, None
        if found not in (30, 31):
            call, _, given = found
            share, sender, switch = self.share(call, given)
        length, answer, _ = self.world.record(s)
        self.answers.append((answer, found not in (30, 31) and call == "deliver"))
        if found in (30, 31):
            return None
        if call == "decide" and answer == 0:
            controller, switch, serial, cause = given
            self.decided[controller].append((switch, serial, cause))
        if call in ("send", "keep") and share:
            self.shares.add((sender, switch) + share)
        if call == "raw" and share and answer in MATCHED and (sender, switch) + share not in self.shares:
            self.made_up.add(sender)
        if call not in ("decide", "report") and answer == 1:
            self.applied.append((len(self.answers), share[0], switch, share[1]))
        return length

    def share(self, call, given):
        """What a record delivers or keeps, as (number, rule); its sender and its switch. Found before the record."""
        if call in ("decide", "report"):
            return None, None, None
        if call in ("send", "keep"):
            controller, switch = given[:2]
            known = self.world.known(switch, controller) and (call == "send" or given[2] < 64)
            answer, message = self.world.made(controller, switch) if known else (12, b"")
            if answer != 0:
                return None, controller, switch
        elif call == "raw":
            switch, message = given
            if message[0] != SHARE.number:
                return None, None, switch
        else:
            kept = self.world.places[given[0]] if given[0] < 64 else None
            if not kept:
                return None, None, None
            switch, message = kept
        sender, _, number, *rule = SHARE.fields(message)
        return (number, tuple(rule)), sender, switch

    def agreed(self):
        """The agreed decisions."""
        def rank(controller):
            chosen = self.decided[controller]
            return sum(is_beginning(other, chosen) for other in self.decided), len(chosen), -controller
        return self.decided[max(range(self.n), key=rank)]


def is_beginning(first, second):
    return second[:len(first)] == first


def changes(evening, agreed):
    """What became of the agreed changes."""
    book = evening.world.controllers[0].book
    planned = [(s, rule) for switch, _, cause in agreed for _, s, rule in book.plan(switch, cause)]
    numbered = [(number, s, rule) for number, (s, rule) in enumerate(planned, 1)]
    applied = {change[1:] for change in evening.applied}
    unmade = [change for change in numbered if change not in applied]
    total, left = len(numbered), len(unmade)
    if total == 0:
        yield "no change is agreed"
    elif total == 1:
        yield "the agreed change is %smade" % ("not " if left else "")
    elif left == 0:
        yield "%s agreed changes are made" % ("both" if total == 2 else "all %d" % total)
    elif left == total:
        yield "none of %d agreed changes is made" % total
    else:
        yield "%d of %d agreed changes %s made" % (total - left, total, "is" if total - left == 1 else "are")
    for number, switch, rule in unmade[:ITEMS]:
        yield "not made: change %d, %s, on switch %d" % (number, route(rule), switch)
    if left > ITEMS:
        yield "and %d more %s not made" % (left - ITEMS, "is" if left - ITEMS == 1 else "are")
    strange = [change for change in evening.applied if change[1:] not in set(numbered)]
    for ordinal, number, switch, rule in strange[:ITEMS]:
        yield "record %d made change %d, %s, on switch %d, which is not agreed" % (ordinal, number, route(rule), switch)
    if len(strange) > ITEMS:
        more = len(strange) - ITEMS
        yield "and %d more record%s made what is not agreed" % (more, "s" if more > 1 else "")


def deviations(evening, agreed):
    """The controllers that deviate, and how."""
    for controller, decided in enumerate(evening.decided):
        if is_beginning(decided, agreed):
            continue
        place = next(k for k, pair in enumerate(zip(decided, agreed)) if pair[0] != pair[1])
        own = decided[place]
        whose = "agreed decision %d" % (agreed.index(own) + 1) if own in agreed else "not agreed"
        yield controller, "controller %d deviates at decision %d: it took %s, which is %s; agreed decision %d is %s" % (
            controller, place + 1, event(own), whose, place + 1, event(agreed[place]))


def order(evening, agreed, late):
    """What is said of the decisions where no controller deviates."""
    count = len(agreed)
    if count == 0:
        return "no decision was taken"
    if late:
        them = "1 decision is agreed; no controller deviates from it"
        return them if count == 1 else "%d decisions are agreed; no controller deviates from them" % count
    if evening.n == 1:
        return "controller 0 took %d decision%s" % (count, "s" if count > 1 else "")
    if count == 1:
        return "all controllers took the same decision"
    return "all controllers took the same %d decisions in the same order" % count


def promise(n, strays):
    most = (n - 1) // 3
    may = "%d of %d may" % (most, n) if most else "none may"
    if not strays:
        return "no controller strays; " + may
    who = named("controller", strays) + (" strays" if len(strays) == 1 else " stray")
    if len(strays) <= most:
        return "%s, within the promise: %s" % (who, may)
    return "%s, and %s%s: nothing is promised" % (who, "only " if most else "", may)


def untold(evening):
    """The numbers of the changes that each controller was not told of."""
    for end in evening.world.controllers:
        numbers = [u[0] for u in end.undone() if u[0] <= evening.world.switches[u[3]].last]
        if numbers:
            yield "controller %d was not told of %s" % (end.id, named("change", numbers))


def refusals(answers):
    """`answers` has each record's answer, and whether the record is a deliver."""
    common = [answer for answer, deliver in answers if answer in USUAL and not (deliver and answer == 26)]
    usual = ["%d %s (%d)" % (common.count(k), USUAL[k][common.count(k) > 1], k) for k in USUAL if k in common]
    yield "usual refusals: " + (", ".join(usual) or "none")
    others = {k: answer for k, (answer, deliver) in enumerate(answers, 1)
              if answer > 2 and (answer not in USUAL or deliver and answer == 26)}
    yield "other refusals: " + (named("record", others, lambda k: " (%d)" % others[k]) if others else "none")


def verdict(s):
    """The lines of the verdict on an input that is not refused before its script."""
    evening = Evening(s)
    agreed = evening.agreed()
    deviating = dict(deviations(evening, agreed))
    late = [c for c, own in enumerate(evening.decided) if c not in deviating and len(own) < len(agreed)]
    idle = [c for c in late if not evening.decided[c]]
    lines = list(changes(evening, agreed))
    lines += deviating.values() or [order(evening, agreed, late)]
    lines += ["controller %d took %d of %d agreed decisions" % (c, len(evening.decided[c]), len(agreed))
              for c in late if c not in idle]
    lines += [named("controller", idle) + " took no decision"] if idle else []
    if evening.made_up:
        made_up = named("controller", sorted(evening.made_up))
        lines.append("shares in the name%s of %s were made up" % ("s" if len(evening.made_up) > 1 else "", made_up))
    lines.append(promise(evening.n, sorted(evening.made_up | set(deviating))))
    lines += list(untold(evening)) or ["no report is missing"]
    lines += refusals(evening.answers)
    return ["verdict"] + ["  " + line for line in lines]
