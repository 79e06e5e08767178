"""One change through both ends, from the event to done."""
from page import BLUE, GREEN, GREY, LINE, ORANGE, PALE, TEAL, Page

COLUMNS = (20, 196, 372, 548, 724)
W, HALF = 156, 78
TOP, CONTROLLERS, SWITCHES = 50, 162, 374
HIGH, UPPER, LOWER = 66, 164, 196
# By columns.
AT_CONTROLLERS = (
    ("2 offered", "Each controller checks the tag, and that the serial is new. Then it offers the event."),
    ("4 decision", "Each controller finds the plan for switch 5, cause 1. The changes get the next numbers: change 1 "
     "is on switch 2."),
    ("5 share", "Change 1 is ready: nothing lower on its switch or in its flow is undone. Each controller tags its "
     "request with the key it shares with switch 2."),
    ("11 the next one", "The change that waited for change 1 is ready now. It takes the same way."),
    ("10 done", "Each controller that is told drops the change. A change is done when its switch says so, never "
     "because a share was sent."),
)
# The third column and those after it, with what the four slots hold then.
AT_SWITCHES = (
    ("6 slots", "Switch 2 checks the tag and the number. It keeps the latest share of each controller in a slot.",
     (("1 A", BLUE), ("-", ""), ("-", ""), ("1 B", ORANGE))),
    ("7 quorum", "Two of four slots hold one number with one rule. The other rule of controller 3 does not count.",
     (("1 A", GREEN), ("1 A", GREEN), ("-", ""), ("1 B", ORANGE))),
    ("8 applied", "The route is set, and the last applied number is 1. Slots with this number or a lower one are "
     "emptied.", (("-", ""),) * 4),
)
NOTES = (
    "In a slot: the number of the change, and A for the rule of the plan or B for another rule.",
    "A controller can write a lost or late share again, the same to the byte, until it learns that the change is made.",
)


def slots(page, x, held):
    """Four slots of a switch: what each holds."""
    y = SWITCHES + LOWER - 44
    for at, (words, colour) in enumerate(held):
        page.rect(x + 9 + at * 35, y, 33, 34, fill=PALE[colour], stroke=colour or LINE, round_=2)
        page.words(x + 25.5 + at * 35, y + 14, str(at), size=11, colour=GREY, anchor="middle")
        page.words(x + 25.5 + at * 35, y + 29, words, size=11, bold=bool(colour), anchor="middle", room=32)


def boxes(page):
    a, b = COLUMNS[:2]
    page.box(a, TOP, b + W - a, HIGH, "3 agreement, outside this software",
             "A service puts the offered events into one order, the same for all controllers.", dashed=True)
    for x, (title, words) in zip(COLUMNS, AT_CONTROLLERS):
        page.box(x, CONTROLLERS, W, UPPER, title, words, BLUE)
    page.box(a, SWITCHES, W, LOWER, "1 event",
             "Switch 5 raises an event: serial 1, cause 1. Each controller gets a message with a tag of its own.", TEAL)
    apart = "The switch that tells and the switch that is changed may be the same one."
    page.lines(b + 9, SWITCHES + 20, apart, W - 18, colour=GREY)
    for x, (title, words, held) in zip(COLUMNS[2:], AT_SWITCHES):
        page.box(x, SWITCHES, W, LOWER, title, words, GREEN)
        slots(page, x, held)


def arrows(page):
    a, b, c, d, e = COLUMNS
    foot, level, low = CONTROLLERS + UPPER, CONTROLLERS + UPPER / 2, SWITCHES + LOWER / 2
    page.arrow((a + HALF, SWITCHES), (a + HALF, foot), colour=TEAL)
    page.arrow((a + HALF, CONTROLLERS), (a + HALF, TOP + HIGH))
    page.arrow((b + HALF, TOP + HIGH), (b + HALF, CONTROLLERS))
    page.arrow((b + W, level), (c, level))
    page.arrow((c + HALF, foot), (c + HALF, SWITCHES), colour=BLUE)
    page.arrow((c + W, low), (d, low))
    page.arrow((d + W, low), (e, low))
    page.arrow((e + HALF, SWITCHES), (e + HALF, foot), colour=TEAL)
    page.arrow((e, level), (d + W, level))
    page.arrow((d, level), (c + W, level))
    page.words(a + HALF + 8, foot + 28, "tagged event", colour=TEAL)
    page.words(c + HALF + 8, foot + 28, "tagged shares", colour=BLUE)
    page.words(e + HALF - 8, foot + 28, "9 acknowledgement", colour=TEAL, anchor="end")


def drawn(_):
    page = Page(
        628, "One change, from the event to done",
        "Switch 5 raises an event, controllers decide alike and send shares, switch 2 counts controllers and applies.",
    )
    page.words(COLUMNS[2], TOP + 30, "Four controllers, 0 to 3: a change needs two of them.")
    page.words(COLUMNS[2], TOP + 50, "Controller 3 strays: it asks for another rule, B.", colour=ORANGE)
    boxes(page)
    arrows(page)
    for at, words in enumerate(NOTES):
        page.words(COLUMNS[0], 594 + at * 18, words, size=11.5, colour=GREY)
    return page.svg()
