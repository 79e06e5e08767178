"""The slots of switch 5 on the second evening, after each share that reached it. What arrived is read from the
explanation; what the slots hold is computed here by document 01's rules ("Switch end"), and each answer is compared."""
import re
from collections import namedtuple

from page import BLUE, GREEN, GREY, LINE, ORANGE, PALE, RED, Page

# What reached switch 5: in whose name, by whose key, and what it asks for; last is the number applied after it.
Share = namedtuple("Share", "record answer last sender tagger number rule")
ARRIVES = re.compile(
    r"(\d+) (\d+) (\d+)  (?:controller|a made-up share in the name of controller) (\d+) (?:sends its share to|reaches)"
    r" switch 5: .*?change (\d+), \S+ (?:to )?(removed|port \d+)(?:.*tagged with the key of controller (\d+))?"
)
SAID = {0: "held", 1: "applied", 2: "repeat", 14: "bad tag", 16: "too late", 17: "older", 18: "at odds"}
LEFT, CELL, QUORUM, EVENING = 118, 50, 2, 9
CAPTIONS = (
    (92, "record"), (112, "from controller"), (142, "asks for"), (176, "answer"), (196, "after it:"),
    (386, "agree on it"), (414, "the route"),
)
SHARES = (
    "Records 12 and 13 both say remove. A switch that counts them has two, takes them for its quorum and withdraws the "
    "route. Both are from controller 3. That is what happened."
)
CONTROLLERS = (
    "A controller has one slot. Record 13 takes the place of record 12, so change 3 has one controller of two. In the "
    "morning 0 and 1 ask for change 2 with one rule: two controllers."
)


def arrivals(root):
    """The shares that reached switch 5, in order."""
    with open(root + "/examples/second-evening.explained.txt", encoding="utf-8") as file:
        found = [match.groups() for match in map(ARRIVES.match, file) if match]
    for record, answer, last, sender, number, rule, tagger in found:
        numbers = map(int, (record, answer, last, sender, tagger or sender, number))
        yield Share(*numbers, rule.replace("removed", "remove"))


def taken(slots, last, share):
    """What document 01 answers to a share, and the last number applied then; the slots are altered."""
    if share.tagger != share.sender:
        return 14, last
    if share.number <= last:
        return 16, last
    asked, held = (share.number, share.rule), slots[share.sender]
    if held and share.number <= held[0]:
        return (17 if share.number < held[0] else 2 if asked == held else 18), last
    slots[share.sender] = asked
    if slots.count(asked) < QUORUM:
        return 0, last
    slots[:] = [slot if slot and slot[0] > share.number else None for slot in slots]
    return 1, share.number


def column(at):
    """Where a share's column begins; the morning stands apart."""
    return LEFT + at * CELL + (14 if at >= EVENING else 0)


def cell(page, x, y, asked, colour):
    page.rect(x + 1.5, y, CELL - 3, 36, fill=PALE[colour], stroke=colour or LINE, round_=3, thick=1.6 if colour else 1)
    if asked:
        number, rule = asked
        page.words(x + CELL / 2, y + 15, str(number), size=13, bold=True, colour=colour, anchor="middle")
        page.words(x + CELL / 2, y + 30, rule, size=11, anchor="middle", room=CELL - 4)


def shown(page, at, share, slots):
    """A column: the share, its answer, and the slots after it."""
    x, middle, asked = column(at), column(at) + CELL / 2, (share.number, share.rule)
    colour = ORANGE if share.tagger == 3 else BLUE
    sender = str(share.sender) if share.tagger == share.sender else "%d as %d" % (share.tagger, share.sender)
    page.words(middle, 92, str(share.record), anchor="middle")
    page.words(middle, 112, sender, colour=colour, anchor="middle")
    cell(page, x, 120, asked, colour)
    applied = share.answer == 1
    colour = {0: GREY, 1: GREEN, 2: GREY}.get(share.answer, RED)
    page.words(middle, 176, SAID[share.answer], size=11, bold=applied, colour=colour, anchor="middle", room=CELL)
    for controller, held in enumerate(slots):
        cell(page, x, 200 + controller * 42, held, "" if not held else ORANGE if controller == 3 else BLUE)
    # An applied share emptied the slots of its quorum; a refused one is in no slot.
    agree = QUORUM if applied else slots.count(asked)
    words = "%d of %d" % (agree, QUORUM) if share.answer <= 2 else "-"
    page.words(middle, 386, words, size=11, bold=applied, colour=GREEN if applied else GREY, anchor="middle")


def captions(page):
    for y, words in CAPTIONS:
        page.words(LEFT - 8, y, words, colour=GREY, anchor="end")
    for controller in range(4):
        page.words(LEFT - 8, 222 + controller * 42, "slot %d" % controller, anchor="end")
    page.words(column(0), 68, "the evening", size=12.5, bold=True)
    page.words(column(EVENING), 68, "the morning", size=12.5, bold=True)
    page.drawn.append("<path d='M%g 56V424' stroke='%s' stroke-dasharray='3 3'/>" % (column(EVENING) - 7, LINE))


def route(page, first, last):
    """The route's life, from the share that set it to the one that withdrew it, each with its column."""
    x, end = column(first[0]) + CELL / 2, column(last[0]) + CELL / 2
    page.drawn.append("<path d='M%g 410H%g' stroke='#93d3a2' stroke-width='16'/>" % (x, end))
    words = "10.1.0.0/16 goes to %s, from record %d to record %d" % (first[1].rule, first[1].record, last[1].record)
    page.words(x + 10, 414, words, colour=GREEN)


def drawn(root):
    page = Page(
        558, "The slots of switch 5 on the second evening",
        "Two withdrawals by controller 3, under two numbers, fill one slot one after the other and are no quorum.",
    )
    captions(page)
    slots, last, made = [None] * 4, 0, []
    for at, share in enumerate(arrivals(root)):
        answer, last = taken(slots, last, share)
        if (answer, last) != (share.answer, share.last):
            raise ValueError("record %d is answered otherwise: %d %d" % (share.record, answer, last))
        made += [(at, share)] * (answer == 1)
        shown(page, at, share, slots)
    route(page, *made)
    page.box(20, 440, 424, 102, "Counting shares under a rule", SHARES, RED)
    page.box(456, 440, 424, 102, "Counting controllers that agree", CONTROLLERS, GREEN)
    return page.svg()
